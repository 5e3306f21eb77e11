//! Calls beside a station that are wrong: each must be found, and said with what is left otherwise.

use oracle::comparison::beside::{oracle_heard_trace, SAID, TABLE};
use oracle::comparison::compare::compare_traces;
use oracle::comparison::run::{Call, Calls, ORACLE};
use oracle::counts::{trace_counts, COUNTS};
use oracle::heard::{trace_heard, ENTRY};
use oracle::trace::start;

/// What the oracle leaves, with something done to it where the header is accepted.
fn changed(change: impl Fn(&mut [u8])) -> impl Fn(&[u8], &mut [u8]) -> u64 {
    move |trace: &[u8], left: &mut [u8]| {
        let number = oracle_heard_trace(trace, left);
        if start(trace).is_ok() {
            change(left);
        }
        number
    }
}

/// The same, done to the entry of each address.
fn entries_changed(change: impl Fn(&mut [u8])) -> impl Fn(&[u8], &mut [u8]) -> u64 {
    changed(move |left| left[COUNTS..SAID].chunks_exact_mut(ENTRY).for_each(&change))
}

#[test]
fn wrong_calls_beside_a_station_are_found() {
    assert_eq!(SAID, COUNTS + TABLE);
    // a count more of what has happened
    let claims = changed(|left| left[3] += u8::from(left[3] != 0));
    let meetings = changed(|left| left[11] += u8::from(left[11] != 0));
    // an address that was heard is heard once more, first and last are one clock, a type is lost
    let times = entries_changed(|entry| entry[3] += u8::from(entry[3] != 0));
    let first = entries_changed(|entry| entry.copy_within(10..16, 4));
    let types = entries_changed(|entry| entry[16] = 0);
    // the last address is left out, and the answers are
    let last = changed(|left| left[SAID - ENTRY..SAID].fill(0));
    let answers = changed(|left| left[SAID..].iter_mut().take(1).for_each(|byte| *byte ^= 1));
    // entries without room for their answers are counted and heard
    let whole = |trace: &[u8], left: &mut [u8]| {
        let number = oracle_heard_trace(trace, left);
        if number % 256 == 18 && start(trace).is_ok() {
            trace_counts(trace, &mut left[..COUNTS]);
            for (address, entry) in (0..).zip(left[COUNTS..SAID].chunks_exact_mut(ENTRY)) {
                trace_heard(trace, address, entry);
            }
        }
        number
    };
    // a refused header says that nobody was heard
    let refused = |trace: &[u8], left: &mut [u8]| {
        let number = oracle_heard_trace(trace, left);
        if start(trace).is_err() {
            left[..SAID].fill(0);
        }
        number
    };
    let wrong: [(Call, &str); 9] = [
        (&claims, "the counts"),
        (&meetings, "the counts"),
        (&times, "address "),
        (&first, "address "),
        (&types, "address "),
        (&last, "address 125"),
        (&answers, "the answer to entry 1"),
        (&whole, "; left there"),
        (&refused, "the counts"),
    ];
    for (i, (call, what)) in wrong.iter().enumerate() {
        let (said, held) = compare_traces(Calls { step_heard_trace: *call, ..ORACLE }, 5, 300);
        assert!(!held, "{}: {}", i, said);
        for part in ["a station that is stepped with a table says otherwise", "the shortest trace found", what] {
            assert!(said.contains(part), "{}: {}", i, said);
        }
    }
}
