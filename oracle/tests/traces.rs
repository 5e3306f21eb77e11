//! Document 01's examples 9 to 12 through the oracle, document 02's times, the published calls that the replay does not
//! make, the programs, and that the comparison can fail.

mod programs;

use oracle::baud::{Baudrate, BAUDRATES};
use oracle::comparison::compare::compare_traces;
use oracle::comparison::hex;
use oracle::comparison::run::{Call, Calls, ORACLE};
use oracle::fdl::{FdlActiveStation, FdlApplication};
use oracle::generator::trace;
use oracle::port::{RecordApplication, RecordPort};
use oracle::records::{PollRecord, Sent, Telegram};
use oracle::time::Instant;
use oracle::trace::{replay_trace, Entry, Header, Runner, ANSWER};
use programs::{bad_usage, program, BAD_USAGE};

/// A poll at this time, all else zero.
fn silent(clock: u64) -> PollRecord {
    PollRecord::silent(clock, 1)
}

fn hearing(clock: u64, telegrams: Vec<Telegram>) -> PollRecord {
    PollRecord { telegrams, ..silent(clock) }
}

/// A station that is online.
fn online() -> Runner {
    let mut runner = Runner::new(&Header::EXAMPLE_12);
    runner.entry(Entry::Online);
    runner
}

/// Polls in steps of 10 µs until the station has sent something; gives that and the state.
fn until_sent(runner: &mut Runner, clock: &mut u64) -> (Sent, u8) {
    loop {
        *clock += 10;
        let answer = runner.poll(&silent(*clock));
        if answer.sent != Sent::Nothing {
            return (answer.sent, answer.state);
        }
    }
}

/// Document 02, P3: 33 bits at each code; at 12 Mbaud, whole microseconds, one bit more, and the most bits that can be asked.
#[test]
fn times_of_bits_are_rounded_up() {
    let pauses = [3438, 1719, 1056, 727, 352, 176, 66, 22, 11, 6, 3];
    for ((baudrate, _), pause) in BAUDRATES.iter().zip(pauses) {
        assert_eq!(baudrate.bits_to_time(33).total_micros(), pause, "{:?}", baudrate);
    }
    for (bits, time) in [(0, 0), (1, 1), (12, 1), (13, 2), (24, 2), (25, 3), (u32::MAX, 357_913_942)] {
        assert_eq!(Baudrate::B12000000.bits_to_time(bits).total_micros(), time, "{} bits", bits);
    }
}

#[test]
fn example_9_passes_1_to_11_count_and_pass_12_polls() {
    let mut runner = online();
    for clock in [1000, 7400, 7532] {
        runner.poll(&silent(clock));
    }
    let mut clock = 7532;
    for pass in 1..=11 {
        let (sent, _) = until_sent(&mut runner, &mut clock);
        assert_eq!(sent, Sent::Token { destination: 5 }, "pass {}", pass);
        assert_eq!(runner.station.watch().gap_count, pass);
    }
    assert_eq!(until_sent(&mut runner, &mut clock), (Sent::StatusRequest { destination: 6 }, 8));
}

#[test]
fn example_10_tokens_to_9_9_9_and_5() {
    let mut runner = online();
    // ready after two laps, asked by 9, in the ring, given the token
    runner.poll(&hearing(1000, vec![Telegram::token(9, 9); 2]));
    runner.poll(&hearing(1100, vec![Telegram::status_request(9, 5)]));
    let mut clock = 1100;
    until_sent(&mut runner, &mut clock);
    clock += 200;
    let answer = runner.poll(&hearing(clock, vec![Telegram::token(9, 5)]));
    assert_eq!((answer.sent, answer.state), (Sent::Nothing, 3));
    for (destination, state) in [(9, 7), (9, 7), (9, 7), (5, 3)] {
        assert_eq!(until_sent(&mut runner, &mut clock), (Sent::Token { destination }, state));
    }
}

#[test]
fn example_11_second_collision_in_listen_token() {
    let station = |runner: &Runner| format!("{:?}", runner.station);
    let new = station(&Runner::new(&Header::EXAMPLE_12));
    let active_now = new.replace("last_bus_activity: None", "last_bus_activity: Some(Instant { micros: 2000 })");
    for (after, left) in [(vec![], new), (vec![Telegram::token(9, 7)], active_now)] {
        let mut runner = online();
        runner.poll(&hearing(1000, vec![Telegram::token(5, 9)]));
        let telegrams = [vec![Telegram::token(5, 9)], after].concat();
        let count = telegrams.len() as u8;
        let answer = runner.poll(&hearing(2000, telegrams));
        assert_eq!((answer.outcome, answer.state, answer.sent, answer.consumed), (3, 0, Sent::Nothing, count));
        assert_eq!(station(&runner), left);
    }
}

/// The trace of example 12, and what the program prints: "each line then ends in 01fc in place of 0014" (document 02, P5).
fn example_12() -> Vec<u8> {
    let polls = [1000, 7399, 7400, 7532, 7598].map(|clock| silent(clock).entry());
    [Header::EXAMPLE_12.write(), vec![0], polls.concat()].concat()
}

const EXAMPLE_12: &str = "00000000000001fc
03100000000001fc
03100000000001fc
02421400300001fc
02321400300001fc
02300000000001fc
6 0
";

const REPLAY_ORACLE: &str = env!("CARGO_BIN_EXE_replay_oracle");
const COMPARE_TRACES: &str = env!("CARGO_BIN_EXE_compare_traces");

#[test]
fn example_12_as_the_program_prints_it() {
    let trace = example_12();
    assert_eq!(hex(&trace[..16]), "050600c800007eb40a7e010b01000000");
    for (words, input) in [(vec![], &trace[..]), (vec!["--hex", &hex(&trace)], &[])] {
        assert_eq!(program(REPLAY_ORACLE, &words, input), (0, EXAMPLE_12.to_string(), String::new()));
    }
    // it reads 4,096 bytes
    let mut long = trace[..16].to_vec();
    long.resize(5000, 0);
    for (input, end) in [
        (&trace[..17], "00000000000001fc\n1 0\n"),
        (&trace[..18], "00000000000001fc\n1 17\n"),
        (&[200; 16], "0 1\n"),
        (&[], "0 17\n"),
        (&long, "\n4080 0\n"),
    ] {
        assert!(program(REPLAY_ORACLE, &[], input).1.ends_with(end), "{:?}", end);
    }
}

#[test]
fn bad_usage_is_one_line_and_status_2() {
    bad_usage(REPLAY_ORACLE, &["--hex", "--hex 0", "--hex zz", "--other", "no-such-file", "a b c"]);
    bad_usage(COMPARE_TRACES, &BAD_USAGE);
    bad_usage(COMPARE_TRACES, &["1 -2", "--show 1", "x 2 -- true"]);
}

/// `poll` and `poll_multi` of the published text leave the station as the replay's poll does, and ask the same of the
/// port.
#[test]
fn poll_and_poll_multi_are_the_replays_poll() {
    let mut polls = 0;
    for index in 0..300 {
        let made = trace(1, index);
        let header = match Header::accepted(&made.header) {
            Some(header) => header,
            None => continue,
        };
        let mut runner = Runner::new(&header);
        let mut other = FdlActiveStation::new(header.parameters());
        for (entry, _) in made.entries.iter().filter_map(|entry| Entry::first(entry)) {
            runner.entry(entry);
            match entry {
                Entry::Online => other.set_online(),
                Entry::Offline => other.set_offline(),
                Entry::Passive => other.set_passive(),
                Entry::Poll(bytes) => {
                    if let Ok(record) = PollRecord::decode(header.applications, bytes) {
                        polls += 1;
                        published_poll(&mut other, &record);
                    }
                }
            }
            assert_eq!(format!("{:?}", runner.station), format!("{:?}", other));
        }
    }
    assert!(polls > 10_000, "{} polls", polls);
}

/// `poll` with one application, `poll_multi` with more.
fn published_poll(station: &mut FdlActiveStation, record: &PollRecord) {
    let now = Instant::from_micros(record.clock as i64);
    let mut port = RecordPort::new(record);
    let mut applications = RecordApplication::all(record);
    if let [application] = applications.as_mut_slice() {
        station.poll(now, &mut port, application);
    } else {
        let mut list: Vec<&mut dyn FdlApplication> = Vec::new();
        applications.iter_mut().for_each(|application| list.push(application));
        station.poll_multi(now, &mut port, &mut list);
    }
}

/// Document 02's 25 is no panic of the published builder, and has a test of its own.
#[test]
fn a_header_is_refused_exactly_where_the_published_builder_panics() {
    std::panic::set_hook(Box::new(|_| {}));
    let good = Header::EXAMPLE_12;
    for value in 0..=255u8 {
        let more = u32::from(value);
        for header in [
            Header { address: value, ..good },
            Header { gap: value, ..good },
            Header { hsa: value, ..good },
            Header { retry: value, ..good },
            Header { min_tsdr: value, ..good },
            Header { slot: 100 + u16::from(value), ..good },
            Header { rotation: 128 + more, ..good },
            Header { rotation: 16_777_960 - 128 + more, ..good },
        ] {
            let built = std::panic::catch_unwind(|| header.parameters()).is_ok();
            assert_eq!(built, matches!(header.refusal(), None | Some(25)), "{:?}", header);
        }
    }
    let _ = std::panic::take_hook();
}

/// Document 02, P4: "rotation of at least slot bits + 100", without a wrap; 25 comes "directly after 4".
#[test]
fn a_rotation_without_room_for_a_gap_poll_is_25() {
    let good = Header::EXAMPLE_12;
    // the site's settings; the edge; the least rotation of all; the largest slot; where 16 bits would wrap
    for (baud, slot, rotation, refusal) in [
        (6, 200, 256, Some(25)),
        (6, 200, 299, Some(25)),
        (6, 200, 300, None),
        (6, 200, 301, None),
        (0, 156, 256, None),
        (0, 157, 256, Some(25)),
        (0, 155, 255, Some(4)),
        (6, 65435, 65534, Some(25)),
        (6, 65435, 65535, None),
        (6, 65436, 256, Some(25)),
        (6, 65436, 65535, Some(25)),
        (6, 65436, 65536, None),
        (6, 65535, 65634, Some(25)),
        (6, 65535, 65635, None),
        (6, 65535, 16_777_960, None),
    ] {
        let header = Header { baud, slot, rotation, ..good };
        assert_eq!(header.refusal(), refusal, "{:?}", header);
    }
    // with one other fault
    let short = Header { rotation: 299, ..good };
    for (header, refusal) in [
        (Header { address: 126, ..short }, 1),
        (Header { baud: 11, ..short }, 10),
        (Header { slot: 199, rotation: 298, ..short }, 2),
        (Header { hsa: 5, ..short }, 3),
        (Header { rotation: 255, ..short }, 4),
        (Header { gap: 0, ..short }, 25),
        (Header { retry: 0, ..short }, 25),
        (Header { min_tsdr: 10, ..short }, 25),
        (Header { applications: 9, ..short }, 25),
        (Header { factors: (1, 0), ..short }, 25),
        (Header { zero: 1, ..short }, 25),
    ] {
        assert!(header.faults().contains(&25), "{:?}", header);
        assert_eq!(header.refusal(), Some(refusal), "{:?}", header);
        assert_eq!(replay_trace(&header.write(), &mut []), refusal.into(), "{:?}", header);
        assert_eq!(replay_trace(&header.write()[..15], &mut []), 17, "{:?}", header);
    }
}

#[test]
fn a_buffer_keeps_what_is_not_an_answer() {
    let trace = example_12();
    for room in 0..60 {
        let mut buffer = vec![0xa5; room];
        let number = replay_trace(&trace, &mut buffer);
        let answered = (room / ANSWER).min(6);
        let ending = if answered < 6 { 18 } else { 0 };
        assert_eq!(number, answered as u64 * 256 + ending);
        assert!(buffer[ANSWER * answered..].iter().all(|byte| *byte == 0xa5));
    }
}

#[test]
fn the_oracle_agrees_with_itself_and_too_few_traces_miss_something() {
    let (said, held) = compare_traces(ORACLE, 5, 300);
    assert!(held, "{}", said);
    assert!(said.contains("never reached: "), "{}", said);
    assert!(said.ends_with(", 0 differ\n"), "{}", said);
    let words = ["5", "300", "--", COMPARE_TRACES, "--serve"];
    assert_eq!(program(COMPARE_TRACES, &words, &[]), (0, said, String::new()));
}

#[test]
fn wrong_calls_are_found() {
    // one entry too many
    let counts = |trace: &[u8], answers: &mut [u8]| match replay_trace(trace, answers) {
        number if number >= 256 => number + 256,
        number => number,
    };
    // a byte behind the answers
    let tail = |trace: &[u8], answers: &mut [u8]| {
        let number = replay_trace(trace, answers);
        answers.iter_mut().skip(ANSWER * (number / 256) as usize).take(1).for_each(|byte| *byte = 0x33);
        number
    };
    // one answer for all
    let same = |trace: &[u8], answers: &mut [u8]| {
        let number = replay_trace(trace, answers);
        answers[..ANSWER * (number / 256) as usize].fill(0);
        number
    };
    let refuses = |_: &[u8], _: &mut [u8]| 17;
    let panics = |_: &[u8], _: &mut [u8]| -> u64 { panic!("planted") };
    let wrong: [Call; 5] = [&counts, &tail, &same, &refuses, &panics];
    for (i, call) in wrong.iter().enumerate() {
        let (said, held) = compare_traces(Calls { replay_trace: *call, ..ORACLE }, 5, 300);
        assert!(!held, "{}: {}", i, said);
        for part in ["seed 5, trace ", "the shortest trace found", "the oracle:  ", "the other:   "] {
            assert!(said.contains(part), "{}: {}", i, said);
        }
    }
    // the same calls as a station that is stepped, and the trace call is right
    for (i, call) in wrong.iter().enumerate() {
        let (said, held) = compare_traces(Calls { step_trace: *call, ..ORACLE }, 5, 300);
        assert!(!held && said.contains("a station that is stepped answers otherwise"), "{}: {}", i, said);
    }
    // the same calls as one that is stepped with a table: they say nothing of who was heard
    for (i, call) in wrong.iter().enumerate() {
        let (said, held) = compare_traces(Calls { step_heard_trace: *call, ..ORACLE }, 5, 300);
        assert!(!held && said.contains("a station that is stepped with a table says otherwise"), "{}: {}", i, said);
    }
    // a program that says nothing
    let (status, said, _) = program(COMPARE_TRACES, &["5", "300", "--", "true"], &[]);
    assert_eq!(status, 1);
    assert!(said.contains("it ended without an answer"), "{}", said);
}
