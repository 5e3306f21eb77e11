//! The calls on a simulated bus, as the comparison of calls makes them; and that a station's part of a report is what the trace
//! call answers.

use super::met::Met;
use super::simulation::{simulate, simulated_trace, Setup, HEAD, STATION};
use super::tries::{parts, setup_at_random, Try};
use crate::comparison::calls::{self, Asked, Calls, Left, Made};
use crate::comparison::hex;
use crate::trace::ANSWER;

/// The call that simulates a setup: the setup, the report.
pub type Simulate = fn(&[u8], &mut [u8]) -> u64;
/// The call that gives a station's trace: the setup, the place, the trace.
pub type Trace = fn(&[u8], u8, &mut [u8]) -> u64;
/// The call that replays a trace.
pub type Replay = fn(&[u8], &mut [u8]) -> u64;

/// What both calls leave.
fn made_by(simulate: Simulate, trace: Trace, one: &Try) -> Made {
    match one {
        Try::Simulate(setup, report) => {
            let mut report = report.clone();
            let returned = simulate(setup, &mut report);
            Made::of(returned, report)
        }
        Try::Trace(setup, place, buffer) => {
            let mut buffer = buffer.clone();
            let returned = trace(setup, *place, &mut buffer);
            Made::of(returned, buffer)
        }
    }
}

/// What two calls in this process leave.
pub fn made(simulate: Simulate, trace: Trace, tries: &[Try]) -> Vec<Left> {
    tries.iter().map(|one| Some(made_by(simulate, trace, one))).collect()
}

/// At most this many bytes of a buffer are said.
const SAID: usize = 2000;

/// A setup without one of its stations, and with fewer ticks.
fn smaller_setups(setup: &[u8]) -> Vec<Vec<u8>> {
    let mut smaller = Vec::new();
    if setup.len() < HEAD {
        return smaller;
    }
    let ticks = u32::from_be_bytes([setup[5], setup[6], setup[7], setup[8]]);
    for fewer in [ticks / 2, ticks - ticks / 8, ticks.saturating_sub(1)] {
        if fewer < ticks {
            smaller.push([&setup[..5], &fewer.to_be_bytes(), &setup[HEAD..]].concat());
        }
    }
    let (head, stations) = setup.split_at(HEAD);
    for out in 0..stations.len() / STATION {
        let rest = [&stations[..STATION * out], &stations[STATION * (out + 1)..]].concat();
        smaller.push([&[head[0].wrapping_sub(1)], &head[1..], &rest].concat());
    }
    smaller
}

impl calls::Try for Try {
    const NAME: &'static str = "simulations";

    fn by_oracle(&self) -> Made {
        made_by(simulate, simulated_trace, self)
    }

    fn in_words(&self) -> String {
        match self {
            Try::Simulate(setup, report) => {
                format!("a setup of {} bytes, room for a report of {}: {}", setup.len(), report.len(), hex(setup))
            }
            Try::Trace(setup, place, trace) => {
                let room = trace.len();
                format!(
                    "a setup of {} bytes, place {}, room for a trace of {}: {}",
                    setup.len(),
                    place,
                    room,
                    hex(setup)
                )
            }
        }
    }

    fn left_in_words(&self, made: &Made) -> String {
        let (done, number) = (made.returned / 256, made.returned % 256);
        let what = match self {
            Try::Simulate(..) => "ticks",
            Try::Trace(..) => "bytes written",
        };
        let buffer = &made.buffer[..made.buffer.len().min(SAID)];
        format!("number {}, {} {}; the buffer: {}", number, done, what, hex(buffer))
    }

    /// Fewer ticks; then fewer stations; then a smaller buffer.
    fn smaller(&self) -> Box<dyn Iterator<Item = Try> + '_> {
        let (setup, buffer) = match self {
            Try::Simulate(setup, buffer) | Try::Trace(setup, _, buffer) => (setup, buffer),
        };
        let again = move |setup: Vec<u8>, buffer: Vec<u8>| match self {
            Try::Simulate(..) => Try::Simulate(setup, buffer),
            Try::Trace(_, place, _) => Try::Trace(setup, *place, buffer),
        };
        let fewer = smaller_setups(setup).into_iter().map(move |setup| again(setup, buffer.clone()));
        let least = buffer.len() / 2;
        let rooms = [least, buffer.len().saturating_sub(ANSWER), buffer.len().saturating_sub(1)];
        let rooms = rooms.into_iter().filter(move |room| *room < buffer.len());
        Box::new(fewer.chain(rooms.map(move |room| again(setup.clone(), buffer[..room].to_vec()))))
    }

    fn asked(&self) -> Asked<'_> {
        match self {
            Try::Simulate(setup, report) => Asked { which: 4, word: 0, lent: setup, buffer: report },
            Try::Trace(setup, place, trace) => Asked { which: 5, word: (*place).into(), lent: setup, buffer: trace },
        }
    }

    fn of_asked(asked: Asked) -> Try {
        let (lent, buffer) = (asked.lent.to_vec(), asked.buffer.to_vec());
        match asked.which {
            4 => Try::Simulate(lent, buffer),
            _ => Try::Trace(lent, asked.word as u8, buffer),
        }
    }
}

/// Compares all calls of the seed with `count` setups made at random.
pub fn compare_simulations(calls: Calls<Try>, seed: u64, count: u64) -> (String, bool) {
    calls::compare::<Try, Met>(calls, parts(seed, count), seed)
}

/// Document 02: "Each station's part of the report equals its own trace answers on the records it was given.", by these calls on
/// `count` setups made at random; gives the text to print and whether it held.
pub fn compare_answers(simulate: Simulate, trace: Trace, replay: Replay, seed: u64, count: u64) -> (String, bool) {
    let (mut stations, mut polls) = (0, 0);
    for index in 0..count {
        let bytes = setup_at_random(seed, index);
        let setup = Setup::read(&bytes).expect("an accepted setup");
        let (ticks, seats) = (setup.ticks as usize, setup.stations.len());
        let mut report = vec![0; ANSWER * seats * ticks];
        let mut trace_bytes = vec![0; 17 + 47 * ticks];
        let simulated = simulate(&bytes, &mut report);
        for place in 0..seats {
            let written = trace(&bytes, place as u8, &mut trace_bytes);
            let mut answers = vec![0; ANSWER * (ticks + 1)];
            let replayed = replay(&trace_bytes[..(written / 256) as usize], &mut answers);
            let part = report.chunks(ANSWER).skip(place).step_by(seats).flatten().copied();
            let ended = [simulated, written % 256, replayed] == [256 * ticks as u64, 0, 256 * (ticks as u64 + 1)];
            if !ended || !answers[ANSWER..].iter().copied().eq(part) {
                let said = format!("station {} is answered otherwise by its own trace: {}", place, hex(&bytes));
                return (format!("simulations: seed {}, setup {}: {}\n", seed, index, said), false);
            }
        }
        stations += seats;
        polls += seats * ticks;
    }
    let said = format!("{} stations with {} polls, each answered as by the call on its own trace", stations, polls);
    (format!("simulations: seed {}, {} setups, {}\n", seed, count, said), true)
}
