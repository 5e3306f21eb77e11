//! Document 02, P7: who was heard, against entries stated by hand, the order of the refusals, and that the comparison finds
//! wrong calls.

use oracle::comparison::compare::compare_traces;
use oracle::comparison::hex;
use oracle::comparison::run::{Ask, Calls, ORACLE};
use oracle::editions::Edition;
use oracle::heard::{trace_heard, ENTRY};
use oracle::records::{PollRecord, Telegram};
use oracle::trace::{replay_trace, Header};

/// A poll of a station with one application that declines.
fn hearing(clock: u64, telegrams: Vec<Telegram>) -> Vec<u8> {
    PollRecord { telegrams, ..PollRecord::silent(clock, 1) }.entry()
}

fn response(source: u8, station_type: u8, status: u8) -> Telegram {
    Telegram::Response { destination: 9, source, station_type, status }
}

/// What is left of 20 bytes and returned.
fn ask(trace: &[u8], address: u8) -> (u64, String) {
    let mut entry = [0xa5; 20];
    let returned = trace_heard(trace, address, &mut entry);
    (returned, hex(&entry))
}

/// Station 5 listens: 9 three times in two polls, the clock goes back between them; 12 as response with a status; 126, 127 and
/// a short confirmation; our own address once; then offline, and 9 is heard again.
fn story() -> Vec<u8> {
    [
        Header::EXAMPLE_12.write(),
        vec![0],
        hearing(0x1000, vec![Telegram::token(9, 12), response(12, 0, 3), Telegram::token(9, 9), response(126, 1, 0)]),
        // at or before the last activity: a transmission is found going on, and nothing is consumed
        hearing(0xfff, vec![Telegram::token(20, 12)]),
        hearing(0x2000, vec![Telegram::ShortConfirmation, Telegram::token(5, 9), Telegram::status_request(127, 9)]),
        vec![1, 0],
        hearing(0x800, vec![response(9, 2, 0), Telegram::token(12, 9)]),
        // a record that is refused: its length byte says 3
        vec![3, 0, 0, 0],
    ]
    .concat()
}

/// times 4 bytes, first 6, last 6, type 1; then three bytes that keep their value
const HEARD: [(u8, &str); 5] = [
    (5, "00000001 000000002000 000000002000 00 a5a5a5"),
    (9, "00000003 000000001000 000000000800 03 a5a5a5"),
    (12, "00000002 000000001000 000000000800 01 a5a5a5"),
    (20, "00000000 000000000000 000000000000 00 a5a5a5"),
    (125, "00000000 000000000000 000000000000 00 a5a5a5"),
];

#[test]
fn entries_by_hand() {
    let whole = story();
    for edition in [Edition::First, Edition::Second] {
        let trace = [Header::EXAMPLE_12.write_as(edition), whole[16..].to_vec()].concat();
        for (address, entry) in HEARD {
            let entry = entry.replace(' ', "");
            assert_eq!(ask(&trace, address), (8 * 256, entry), "{}", address);
        }
    }
    // one byte less: the last entry is cut, and what the whole ones make is there
    let cut = &whole[..whole.len() - 1];
    assert_eq!(ask(cut, 9), (7 * 256 + 17, HEARD[1].1.replace(' ', "")));
    assert_eq!(ask(&whole[..16], 9), (0, HEARD[3].1.replace(' ', "")));
    assert_eq!(ask(&whole[..18], 9), (256 + 17, HEARD[3].1.replace(' ', "")));
}

#[test]
fn the_order_of_the_refusals() {
    let good = story();
    let mut bad = good.clone();
    bad[0] = 126;
    let cut = &good[..15];
    let untouched = hex(&[0xa5; 20]);
    for address in [126, 127, 128, 255] {
        for trace in [&good, &bad, cut, &[]] {
            assert_eq!(ask(trace, address), (26, untouched.clone()));
            assert_eq!(trace_heard(trace, address, &mut []), 26);
        }
    }
    assert_eq!(ask(&bad, 125), (1, untouched.clone()));
    assert_eq!(ask(cut, 0), (17, untouched.clone()));
    assert_eq!(ask(&[], 0), (17, untouched));
    for room in 0..ENTRY {
        let mut entry = vec![0xa5; room];
        assert_eq!(trace_heard(&good, 9, &mut entry), 18);
        assert_eq!(trace_heard(&bad, 9, &mut entry), 1);
        assert_eq!(trace_heard(cut, 9, &mut entry), 17);
        assert_eq!(entry, vec![0xa5; room]);
    }
    assert_eq!(trace_heard(&good, 9, &mut [0; ENTRY]), 8 * 256);
    // room for answers is not asked for
    assert_eq!(replay_trace(&good, &mut []), 18);
}

#[test]
fn wrong_calls_are_found() {
    let never = |trace: &[u8], address: u8, entry: &mut [u8]| {
        let returned = trace_heard(trace, address, entry);
        let written = if [0, 17].contains(&(returned % 256)) && returned != 17 { ENTRY } else { 0 };
        entry.iter_mut().take(written).for_each(|byte| *byte = 0);
        returned
    };
    let late = |trace: &[u8], address: u8, entry: &mut [u8]| match trace_heard(trace, 0, &mut [0; ENTRY]) {
        number @ 1..=255 if number != 17 => number,
        _ => trace_heard(trace, address, entry),
    };
    let last_address = |trace: &[u8], address: u8, entry: &mut [u8]| match address {
        125 => 26,
        _ => trace_heard(trace, address, entry),
    };
    let tail = |trace: &[u8], address: u8, entry: &mut [u8]| {
        let returned = trace_heard(trace, address, entry);
        entry.iter_mut().skip(ENTRY).for_each(|byte| *byte = 0x11);
        returned
    };
    let panics = |_: &[u8], _: u8, _: &mut [u8]| -> u64 { panic!("planted") };
    let wrong: [Ask; 5] = [&never, &late, &last_address, &tail, &panics];
    for (i, call) in wrong.iter().enumerate() {
        let (said, held) = compare_traces(Calls { trace_heard: *call, ..ORACLE }, 5, 100);
        assert!(!held, "{}: {}", i, said);
        for part in ["seed 5, trace ", "an address was heard otherwise", "asked for address ", "the other:   "] {
            assert!(said.contains(part), "{}: {}", i, said);
        }
    }
}
