//! The polls whose instructions `scripts/measure.sh` counts on the program `run_polls`, written as its input. A case is a
//! start and a round of polls that is repeated. The station has address 5; a bit takes 2 microseconds.
//!
//! `rounds` lists the cases: name, polls a round, words, with tabs between. `rounds CASE N` writes a case of N rounds.

use amsulfezd::record::{Decision, Poll, StationType, Telegram};
use amsulfezd::trace::{Header, TraceBuilder, HEADER_LENGTH};
use std::io::Write;

const OWN: u8 = 5;
const BAUD_500K: u8 = 6;

/// The polls of a run so far.
struct Run {
    trace: TraceBuilder,
    applications: u8,
    clock: u64,
    polls: usize,
}

impl Run {
    fn new(applications: u8) -> Run {
        Run {
            trace: TraceBuilder::new(Header::new(OWN, BAUD_500K, applications)),
            applications,
            clock: 0,
            polls: 0,
        }
    }

    /// A poll so many microseconds later. The last application decides so, all others decline.
    fn decided(&mut self, later: u64, decision: Decision, telegrams: &[Telegram]) {
        self.clock += later;
        self.polls += 1;
        let last = usize::from(self.applications) - 1;
        let poll = Poll::at(self.clock).normal(last, decision);
        let poll = telegrams.iter().fold(poll, |p, &t| p.telegram(t));
        self.trace.poll(&poll).expect("a poll that fits");
    }

    /// The same, with all applications declining.
    fn heard(&mut self, later: u64, telegrams: &[Telegram]) {
        self.decided(later, Decision::Declines, telegrams);
    }

    /// The token is heard going round among these stations; then the first asks for our status, and is answered.
    fn heard_of(&mut self, stations: &[u8]) {
        self.heard(1000, &[]);
        for _ in 0..3 {
            for (at, &from) in stations.iter().enumerate() {
                let to = stations[(at + 1) % stations.len()];
                self.heard(100, &[Telegram::token(from, to)]);
            }
        }
        self.heard(100, &[Telegram::status_request(stations[0], OWN)]);
        self.heard(66, &[]);
        self.heard(300, &[]);
    }

    fn token_from(&mut self, station: u8) {
        self.heard(100, &[Telegram::token(station, OWN)]);
    }

    /// After so many microseconds all applications decline, then the token is passed on; two polls follow.
    fn passed_on(&mut self, later: u64) {
        for time in [later, 1, 30, 100] {
            self.heard(time, &[]);
        }
    }

    /// The run as the program reads it: address, applications, and the entries of a trace.
    fn into_bytes(self) -> Vec<u8> {
        let mut bytes = vec![OWN, self.applications];
        bytes.extend_from_slice(&self.trace.into_bytes()[HEADER_LENGTH..]);
        bytes
    }
}

fn listening(run: &mut Run) {
    run.heard(1000, &[]);
    run.heard(1, &[]);
}

fn alone(run: &mut Run) {
    for time in [1000, 6399, 1, 132, 66] {
        run.heard(time, &[]);
    }
}

fn near(run: &mut Run) {
    run.heard_of(&[6]);
}

fn far(run: &mut Run) {
    run.heard_of(&[4]);
}

fn both(run: &mut Run) {
    run.heard_of(&[4, 6]);
}

fn nothing(run: &mut Run) {
    run.heard(0, &[]);
}

fn confirmation(run: &mut Run) {
    run.heard(1, &[Telegram::ShortConfirmation]);
}

fn confirmations(run: &mut Run) {
    run.heard(1, &[Telegram::ShortConfirmation; 8]);
}

fn witness(run: &mut Run) {
    run.heard(1, &[Telegram::token(4, 6)]);
    run.heard(1, &[Telegram::token(6, 4)]);
}

fn to_ourselves(run: &mut Run) {
    run.heard(66, &[]);
}

fn from_6(run: &mut Run) {
    run.token_from(6);
    run.passed_on(66);
}

fn from_4(run: &mut Run) {
    run.token_from(4);
    run.passed_on(66);
}

fn sends(run: &mut Run) {
    run.token_from(6);
    run.decided(66, Decision::tells(10), &[]);
    run.passed_on(286);
}

fn asks(run: &mut Run) {
    run.token_from(6);
    run.decided(66, Decision::asks(20, 10), &[]);
    run.heard(300, &[Telegram::response(20, OWN, StationType::Slave)]);
    run.passed_on(66);
}

/// Name, applications, start, round, words.
type Case = (&'static str, u8, fn(&mut Run), fn(&mut Run), &'static str);

#[rustfmt::skip]
const CASES: [Case; 14] = [
    ("listening", 1, listening, nothing, "ListenToken, nothing heard"),
    ("idle_near", 1, near, nothing, "ActiveIdle, nothing heard, next station 6"),
    ("idle_far", 1, far, nothing, "ActiveIdle, nothing heard, next station 4"),
    ("confirmation", 1, near, confirmation, "ActiveIdle, a short confirmation"),
    ("confirmations", 1, near, confirmations, "ActiveIdle, eight short confirmations"),
    ("witness", 1, both, witness, "ActiveIdle, a token between stations 4 and 6"),
    ("alone", 1, alone, to_ourselves, "alone: the token passed to ourselves, gap polls"),
    ("near", 1, near, from_6, "a ring of 5 and 6: the token used and passed on"),
    ("far", 1, far, from_4, "a ring of 5 and 4: the same"),
    ("both", 1, both, from_4, "a ring of 4, 5 and 6: the same"),
    ("sends", 1, near, sends, "a ring of 5 and 6, the application sends"),
    ("asks", 1, near, asks, "a ring of 5 and 6, the application asks and is answered"),
    ("eight_decline", 8, near, from_6, "a ring of 5 and 6, eight applications decline"),
    ("eight_send", 8, near, sends, "a ring of 5 and 6, the last of eight applications sends"),
];

fn main() {
    let words: Vec<String> = std::env::args().skip(1).collect();
    if let Err(why) = answer(&words) {
        eprintln!("rounds: {}", why);
        std::process::exit(1);
    }
}

fn answer(words: &[String]) -> Result<(), String> {
    match words {
        [] => {
            for (name, applications, _, round, says) in CASES {
                let mut run = Run::new(applications);
                round(&mut run);
                println!("{}\t{}\t{}", name, run.polls, says);
            }
            Ok(())
        }
        [name, rounds] => {
            let case = CASES.iter().find(|case| case.0 == name.as_str());
            let (_, applications, start, round, _) = case.ok_or(format!("no case {}", name))?;
            let rounds: u32 = rounds
                .parse()
                .map_err(|_| format!("no number: {}", rounds))?;
            let mut run = Run::new(*applications);
            start(&mut run);
            (0..rounds).for_each(|_| round(&mut run));
            let written = std::io::stdout().write_all(&run.into_bytes());
            written.map_err(|error| error.to_string())
        }
        _ => Err("usage: rounds [CASE ROUNDS]".to_string()),
    }
}
