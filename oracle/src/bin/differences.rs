//! Shows the differences of docs/DIFFERENCES.md by runs. For each trace it prints the answers of this
//! build, and holds them to the list: built as usual, the answers by document 01's rules; built with the
//! feature `published_helpers`, those of the published helpers. Status 1 if one is not as listed.
#![forbid(unsafe_code)]

use oracle::comparison::hex;
use oracle::dp::{DpMaster, Options, Peripheral};
use oracle::fdl::{parameters, FdlActiveStation, FdlApplication, ParametersBuilder};
use oracle::port::{RecordApplication, RecordPort};
use oracle::records::{Decision, PollRecord, Sent, Telegram};
use oracle::time::{Duration, Instant};
use oracle::trace::{replay_trace, Entry, Header, Runner, ANSWER};
use oracle::Baudrate;
use std::collections::BTreeSet;
use std::panic::{catch_unwind, AssertUnwindSafe};

/// Whether this build has the published helpers.
const PUBLISHED: bool = cfg!(feature = "published_helpers");
/// Whether overflow is checked and debug assertions are armed in this build.
const CHECKED: bool = cfg!(debug_assertions);

/// A difference, with what this build answers and what each build should answer.
struct Shown {
    number: &'static str,
    words: &'static str,
    /// The trace in hex, or the call.
    input: String,
    got: String,
    /// By document 01's rules, and by the published text.
    ours: &'static str,
    published: &'static str,
}

impl Shown {
    fn expected(&self) -> &'static str {
        if PUBLISHED {
            self.published
        } else {
            self.ours
        }
    }

    /// A panic may have any message that begins as listed.
    fn as_listed(&self) -> bool {
        let expected = self.expected();
        self.got == expected || (expected.starts_with("panic") && self.got.starts_with(expected))
    }
}

/// What the work gives, or the panic that ends it.
fn tried(work: impl FnOnce() -> String) -> String {
    catch_unwind(AssertUnwindSafe(work)).unwrap_or_else(|payload| {
        let message = match (payload.downcast_ref::<&str>(), payload.downcast_ref::<String>()) {
            (Some(text), _) => text.to_string(),
            (_, Some(text)) => text.clone(),
            _ => "without a message".to_string(),
        };
        format!("panic: {}", message)
    })
}

/// Address 5, 500 kbaud, slot 200, rotation 32436, gap wait 1, HSA 126, one application.
fn header() -> Header {
    Header { gap: 1, ..Header::EXAMPLE_12 }
}

fn poll(clock: u64, telegrams: &[Telegram]) -> PollRecord {
    PollRecord { telegrams: telegrams.to_vec(), ..PollRecord::silent(clock, 1) }
}

/// Online, then these polls.
fn trace(polls: &[PollRecord]) -> Vec<u8> {
    let mut bytes = header().write();
    bytes.push(0);
    polls.iter().for_each(|record| bytes.extend(record.entry()));
    bytes
}

/// The command passive.
fn passive() -> Vec<u8> {
    vec![2]
}

/// The entry of a silent poll.
fn quiet(clock: u64) -> Vec<u8> {
    poll(clock, &[]).entry()
}

/// Silent polls at these times.
fn silent(times: &[u64]) -> Vec<PollRecord> {
    times.iter().map(|time| poll(*time, &[])).collect()
}

/// The polls of a station that hears 6 alone in the ring and its question, answers, gets the token and
/// passes it at 1500: it is in CheckTokenPass. Between 5 and 6 there is no gap.
fn passed_to_6() -> Vec<PollRecord> {
    let token = Telegram::token(6, 6);
    vec![
        poll(1000, &[token, token, Telegram::status_request(6, 5)]),
        poll(1100, &[]),
        poll(1300, &[Telegram::token(6, 5)]),
        poll(1400, &[]),
        poll(1500, &[]),
    ]
}

/// The polls of a station that claims the token and asks station 9 at 7700: AwaitDataResponse.
fn asked_9() -> Vec<PollRecord> {
    let mut polls = silent(&[1000, 7400, 7540, 7700]);
    polls[3].decisions[0].0 = Decision::Sends { reply: Some(9), length: 1 };
    polls
}

/// A difference of the passive station: the last answer to these entries after the header. The published `set_passive` notes the
/// wish before it stops, so a user who catches that panic goes on with a passive station; so does the run here.
fn by_passive(
    number: &'static str,
    words: &'static str,
    entries: &[Vec<u8>],
    ours: &'static str,
    published: &'static str,
) -> Shown {
    let trace = [header().write(), entries.concat()].concat();
    let got = tried(|| {
        let mut runner = Runner::new(&header());
        let (last, earlier) = entries.split_last().expect("an entry");
        for bytes in earlier {
            let _ = catch_unwind(AssertUnwindSafe(|| runner.entry(entry(bytes))));
        }
        hex(&runner.entry(entry(last)).encode())
    });
    Shown { number, words, input: hex(&trace), got, ours, published }
}

/// The entry of these bytes.
fn entry(bytes: &[u8]) -> Entry<'_> {
    Entry::first(bytes).expect("a whole entry").0
}

/// The last answer of a trace.
fn last_answer(trace: &[u8]) -> String {
    let mut answers = vec![0; ANSWER * trace.len()];
    let last = (replay_trace(trace, &mut answers) / 256) as usize - 1;
    hex(&answers[ANSWER * last..ANSWER * (last + 1)])
}

/// A difference that the last answer of a trace shows.
fn by_trace(
    number: &'static str,
    words: &'static str,
    polls: &[PollRecord],
    ours: &'static str,
    published: &'static str,
) -> Shown {
    let trace = trace(polls);
    Shown { number, words, input: hex(&trace), got: tried(|| last_answer(&trace)), ours, published }
}

/// A step of the gap walk on a station that has heard these others.
fn by_walk(
    number: &'static str,
    words: &'static str,
    (own, hsa, others, from): (u8, u8, &[u8], u8),
    ours: &'static str,
    published: &'static str,
) -> Shown {
    let mut station = FdlActiveStation::new(Header { address: own, hsa, ..header() }.parameters());
    station.set_online();
    for other in others {
        one_poll(&mut station, &poll(1000, &[Telegram::token(*other, *other)]));
    }
    let got = tried(|| match station.gap_walk_from(from) {
        None => "waits".to_string(),
        Some(address) => format!("polls {}", address),
    });
    Shown {
        number,
        words,
        input: format!("own {}, others {:?}, HSA {}, next_gap_poll({})", own, others, hsa, from),
        got,
        ours,
        published,
    }
}

/// One poll of the published station with this record's applications.
fn one_poll(station: &mut FdlActiveStation, record: &PollRecord) {
    let mut port = RecordPort::new(record);
    let mut applications = RecordApplication::all(record);
    let mut list: Vec<&mut dyn FdlApplication> = Vec::new();
    for application in applications.iter_mut() {
        list.push(application);
    }
    station.poll_multi(Instant::from_micros(record.clock as i64), &mut port, &mut list);
}

/// What the published text does in any build; `ours` is what the proved code does.
fn by_call(
    number: &'static str,
    words: &'static str,
    call: impl FnOnce() -> String,
    checked: &'static str,
    unchecked: &'static str,
) -> Shown {
    let expected = if CHECKED { checked } else { unchecked };
    Shown {
        number,
        words,
        input: "a call of the published text".to_string(),
        got: tried(call),
        ours: expected,
        published: expected,
    }
}

fn builder() -> ParametersBuilder {
    ParametersBuilder::new(5, Baudrate::B500000)
}

/// The factors of so many milliseconds, by the private function of the published file.
fn factors(millis: u64) -> String {
    format!("{:?}", parameters::factors(Duration::from_millis(millis)))
}

/// Where the published text passes its token when the station is alone, and what an answer carries.
fn alone() -> String {
    let station = FdlActiveStation::new(header().parameters());
    let ring = station.inspect_token_ring();
    format!("the token to {}, {:?}, {} in the answer", ring.next_station(), ring.next(), ring.next().number())
}

/// Two applications, the second one's turn; then a poll with one application only.
fn changed_list() -> String {
    let mut station = FdlActiveStation::new(header().parameters());
    station.set_online();
    let two = |clock, first, second| PollRecord {
        decisions: vec![(first, Decision::Declines), (second, Decision::Declines)],
        ..poll(clock, &[])
    };
    let sends = Decision::Sends { reply: None, length: 1 };
    for clock in [1000, 7400, 7540] {
        one_poll(&mut station, &two(clock, Decision::Declines, sends));
    }
    one_poll(&mut station, &two(7700, Decision::Declines, sends));
    one_poll(&mut station, &poll(7900, &[]));
    format!("next application {}", station.next_application())
}

/// The header of the site: slot 200 with rotation 256.
fn site() -> Header {
    Header { rotation: 256, ..header() }
}

/// A station with these settings, as the published builder takes them. 9 joins its ring, passes the token back at once, and
/// each gap question is answered at once. The station is offered one telegram of each priority for each token. Gives for
/// all tokens but the first, with a gap question due and without, how far the end of hold lies from the token time that it
/// is counted from, and what was sent.
fn holds(header: Header) -> String {
    let own = header.address;
    let mut runner = Runner::new(&header);
    runner.entry(Entry::Online);
    let (mut coming, mut served, mut counted_from, mut due) = (None, None, Instant::ZERO, false);
    let mut seen = BTreeSet::new();
    for clock in (1000..60_000).step_by(10) {
        let was = runner.station.watch();
        let held = was.token_time.is_some();
        if held && was.token_time != Some(was.last_token_time) {
            counted_from = was.last_token_time;
            due = was.gap_poll.is_some();
        }
        let mut record = poll(clock, &[]);
        if held && was.token_time != served {
            let sends = Decision::Sends { reply: None, length: 1 };
            record.decisions[0] = (sends, sends);
        }
        record.telegrams.extend(coming.filter(|(time, _)| *time == clock).map(|(_, telegram)| telegram));
        match runner.poll(&record).sent {
            // what was sent has 66 or 132 us; what is heard then has come 100 us later
            Sent::Token { destination: 9 } => coming = Some((clock + 170, Telegram::token(9, own))),
            Sent::StatusRequest { destination: source } => {
                let station_type = if source == 9 { 2 } else { 0 };
                let reply = Telegram::Response { destination: own, source, station_type, status: 0 };
                coming = Some((clock + 230, reply));
            }
            Sent::Application { high, .. } => {
                served = was.token_time;
                let end = runner.station.watch().end_token_hold_time.total_micros() - counted_from.total_micros();
                let question = if due { "a gap question due" } else { "none due" };
                let priority = if high { "high" } else { "normal" };
                if counted_from != Instant::ZERO {
                    seen.insert(format!("{}: hold to {} us, sent at {} priority", question, end, priority));
                }
            }
            _ => {}
        }
    }
    Vec::from_iter(seen).join("; ")
}

/// What the published station does with a header's settings, and what the call returns for a trace of that header alone.
fn by_header(words: [&'static str; 2], header: Header, hold: &'static str, ending: &'static str) -> [Shown; 2] {
    let trace = header.write();
    let ended = format!("0 {}", replay_trace(&trace, &mut []));
    let shown = |words, got, expected| Shown {
        number: "S11",
        words,
        input: hex(&trace),
        got,
        ours: expected,
        published: expected,
    };
    [shown(words[0], tried(|| holds(header)), hold), shown(words[1], ended, ending)]
}

fn shown() -> Vec<Shown> {
    let with = |mut polls: Vec<PollRecord>, more: PollRecord| {
        polls.push(more);
        polls
    };
    let mut all = vec![
        by_trace(
            "A1",
            "ClaimToken, polled exactly one pause (66 us) after its last activity",
            &silent(&[1000, 7400, 7532]),
            "02321400300001fc",
            "04400000000001fc",
        ),
        by_trace(
            "A2",
            "AwaitDataResponse, polled exactly one slot (400 us) after its telegram",
            &with(asked_9(), poll(8122, &[])),
            "04600000008091fc",
            "03500000000001fc",
        ),
        by_trace(
            "A3",
            "the first PassToken after a claim",
            &silent(&[1000, 7400, 7540, 7700, 7800]),
            "02321400300001fc",
            "02841800600001fc",
        ),
        by_trace(
            "A4",
            "a short confirmation first in CheckTokenPass, log lines evaluated in the published build",
            &with(passed_to_6(), poll(1600, &[Telegram::ShortConfirmation])),
            "0320000001000018",
            "panic",
        ),
        by_passive(
            "A5",
            "passive",
            &[passive()],
            "00000000000001fc",
            "panic: not yet implemented: ConnectivityState Passive",
        ),
        by_passive(
            "A5",
            "passive, then a poll of Offline: PassiveIdle",
            &[passive(), quiet(1000)],
            "03900000000001fc",
            "panic: not yet implemented: Active station state PassiveIdle",
        ),
        by_passive(
            "A11",
            "passive, then a poll of ListenToken: PassiveIdle",
            &[vec![0], quiet(1000), passive(), quiet(1001)],
            "03900000000001fc",
            if CHECKED { "panic: unexpected state: ListenToken" } else { "panic: not yet implemented: Active station" },
        ),
        by_passive(
            "A11",
            "passive, then a poll of ActiveIdle: PassiveIdle",
            &[
                vec![vec![0]],
                passed_to_6().iter().take(2).map(PollRecord::entry).collect(),
                vec![passive(), quiet(1300)],
            ]
            .concat(),
            "0390000000000018",
            if CHECKED { "panic: unexpected state: ActiveIdle" } else { "panic: not yet implemented: Active station" },
        ),
        by_passive(
            "A12",
            "online, then a poll of PassiveIdle: ListenToken",
            &[passive(), quiet(1000), vec![0], quiet(1001)],
            "03100000000001fc",
            if CHECKED { "panic: unexpected state: PassiveIdle" } else { "03100000000001fc" },
        ),
        by_call(
            "A6",
            "the second of two applications has its turn, then a poll with one application",
            changed_list,
            "panic",
            "panic",
        ),
        by_walk("R1", "a lone station", (5, 126, &[], 4), "waits", "polls 5"),
        by_walk("R1a", "next above HSA", (5, 10, &[20], 9), "waits", "polls 0"),
        by_walk("R1b", "a walk from beyond HSA", (1, 5, &[], 9), "polls 0", "polls 10"),
        by_walk("R1c", "next below own, walk up to own", (5, 126, &[2], 4), "waits", "polls 5"),
        by_call(
            "R5",
            "a lone station 5: next_station() of the published text, and document 02's answer beside it",
            alone,
            "the token to 5, Nobody, 127 in the answer",
            "the token to 5, Nobody, 127 in the answer",
        ),
        by_call(
            "S2",
            "slot_bits(199) at 500 kbaud, and what the builder then holds",
            || {
                let mut b = builder();
                let refused = catch_unwind(AssertUnwindSafe(|| {
                    b.slot_bits(199);
                }));
                format!("panic {}, slot bits {}", refused.is_err(), b.build().slot_bits)
            },
            "panic true, slot bits 199",
            "panic true, slot bits 199",
        ),
        by_call("S3", "watchdog_factors of 42949670420 ms", || factors(42_949_670_420), "panic", "Some(Ok((255, 0)))"),
        by_call("S3", "watchdog_factors of 42949672950 ms", || factors(42_949_672_950), "panic", "Some(Ok((2, 0)))"),
        by_call(
            "S4",
            "build_verified with a max Tsdr of 65521 and 200 slot bits",
            || {
                let peripheral = Peripheral(Options { max_tsdr: 65521 });
                builder().build_verified(&DpMaster(vec![peripheral]));
                "yes".to_string()
            },
            "panic",
            "yes",
        ),
    ];
    all.extend(by_header(
        ["slot 200 with rotation 256: the end of hold, from the token time that it is counted from", "its header"],
        site(),
        "a gap question due: hold to -88 us, sent at high priority; none due: hold to 512 us, sent at normal priority",
        "0 25",
    ));
    all.extend(by_header(
        ["slot 200 with rotation 300, the least that is accepted", "its header"],
        Header { rotation: 300, ..site() },
        "a gap question due: hold to 0 us, sent at high priority; none due: hold to 600 us, sent at normal priority",
        "0 0",
    ));
    all
}

fn main() {
    if std::env::args().len() > 1 {
        eprintln!("differences: usage: differences, without a word");
        std::process::exit(2);
    }
    std::panic::set_hook(Box::new(|_| {}));
    println!(
        "differences: {}, {}",
        if PUBLISHED { "the published helpers" } else { "document 01's helpers" },
        if CHECKED { "checks armed" } else { "no checks" }
    );
    let mut other = 0;
    for s in shown() {
        println!("{}: {}\n    {}\n    {}", s.number, s.words, s.input, s.got);
        if !s.as_listed() {
            println!("    LISTED: {}", s.expected());
            other += 1;
        }
    }
    println!("differences: {} answers are not as listed", other);
    std::process::exit(if other == 0 { 0 } else { 1 });
}
