//! The calls beside a station, along a trace: it is stepped one entry at a time with a table of who was heard, and then asked for
//! its counts and for every address. What they leave is held to the oracle's rules for document 02's P6 and P7, over the entries that
//! were answered.

use super::run::{Ask, Call};
use super::steps::{stepped, BEHIND, STATION};
use crate::counts::{self, count, COUNTS};
use crate::editions::Edition;
use crate::heard::{self, summarize, ENTRY};
use crate::ring::LAST;
use crate::trace::{replay_trace, start, Entry};

/// The bytes of a table: "126 entries of 17".
pub const TABLE: usize = ENTRY * (LAST as usize + 1);

/// The bytes that are said at the end: the counts, and the entry of every address.
pub const SAID: usize = COUNTS + TABLE;

/// A call that takes a station one entry further with a table: the station, the entry, the buffer for its answer, and the table.
pub type StepHeard<'a> = &'a dyn Fn(&mut [u8], &[u8], &mut [u8], &mut [u8]) -> u64;

/// The calls on a station and beside it.
#[derive(Clone, Copy)]
pub struct Beside<'a> {
    pub open: Call<'a>,
    pub step: StepHeard<'a>,
    /// The counts of a station.
    pub counts: Call<'a>,
    /// What a table says of an address.
    pub heard: Ask<'a>,
}

/// What such calls leave of a trace: in the first bytes of the buffer what is said at the end, behind them the answers; the number
/// is that of a trace call with this room for answers. A refused header says nothing. A panic is a difference: that a refused
/// entry and a command leave the table, that bytes behind it stay, and that the calls refuse what they should.
pub fn step_heard_trace(calls: Beside, trace: &[u8], left: &mut [u8]) -> u64 {
    let (said, answers) = left.split_at_mut(SAID);
    let mut table = [vec![0; TABLE], vec![0x69; BEHIND]].concat();
    let mut step = |station: &mut [u8], entry: &[u8], answer: &mut [u8]| {
        let before = table.clone();
        let number = (calls.step)(station, entry, answer, &mut table);
        assert_eq!(table[TABLE..], [0x69; BEHIND], "a byte behind the table");
        let polled = number % 256 == 0 && entry[0] > 2 && answer[0] >> 3 == 0;
        assert!(polled || table == before, "what is refused, or a command, changes the table");
        number
    };
    let (number, station) = stepped(calls.open, &mut step, trace, answers);
    if let Some(station) = station {
        let (counts, entries) = said.split_at_mut(COUNTS);
        assert_eq!((calls.counts)(&station, counts), 0, "no counts of a station");
        for (address, entry) in (0..).zip(entries.chunks_exact_mut(ENTRY)) {
            assert_eq!((calls.heard)(&table, address, entry), 0, "a table does not say of {}", address);
        }
        refuses(calls, station, &mut table);
    }
    number
}

/// What the calls refuse, in their order, and that they then write nothing.
fn refuses(calls: Beside, mut station: [u8; STATION + BEHIND], table: &mut [u8]) {
    let (before, known, mut room) = (station, table.to_vec(), [0x69; ENTRY]);
    let numbers = [
        (calls.counts)(&station[..STATION - 1], &mut room[..0]),
        (calls.counts)(&station, &mut room[..COUNTS - 1]),
        (calls.heard)(table, LAST + 1, &mut room[..0]),
        (calls.heard)(table, LAST, &mut room[..ENTRY - 1]),
        (calls.step)(&mut station[..STATION - 1], &[], &mut room[..0], &mut table[..0]),
        (calls.step)(&mut station, &[], &mut room[..0], &mut table[..0]),
        (calls.step)(&mut station, &[0], &mut room[..8], &mut table[..TABLE - 1]),
        (calls.step)(&mut station, &[0], &mut room[..7], table),
    ];
    assert_eq!(numbers, [36, 18, 26, 18, 36, 17, 18, 18], "not what the calls should refuse");
    assert_eq!((station, &table[..], room), (before, &known[..], [0x69; ENTRY]), "what is refused writes");
}

/// The same by the oracle: the trace's answers, and the counts and who was heard of the entries that were answered.
pub fn oracle_heard_trace(trace: &[u8], left: &mut [u8]) -> u64 {
    let (said, answers) = left.split_at_mut(SAID);
    let number = replay_trace(trace, answers);
    if start(trace).is_ok() {
        let part = answered_part(trace, number / 256);
        let (counts, entries) = said.split_at_mut(COUNTS);
        counts::asked(&count(part), counts);
        let run = summarize(part);
        for (address, entry) in (0..).zip(entries.chunks_exact_mut(ENTRY)) {
            heard::asked(&run, address, entry);
        }
    }
    number
}

/// A trace up to the end of its first entries, as many as were answered.
fn answered_part(trace: &[u8], answered: u64) -> &[u8] {
    let mut rest = &trace[Edition::of(trace).length()..];
    for _ in 0..answered {
        rest = Entry::first(rest).expect("an entry that was answered").1;
    }
    &trace[..trace.len() - rest.len()]
}

#[cfg(test)]
mod tests {
    use super::*;
    use crate::heard::Summary;
    use crate::records::PollRecord;
    use crate::trace::{Header, Runner};
    use std::cell::RefCell;

    /// Example 12's header, online, a poll at 1,000 that hears a token from 9 to 12, and a record of three bytes.
    fn trace() -> Vec<u8> {
        let poll = [18, 0, 0, 0, 0, 3, 0xe8, 8, 0, 0, 0, 0, 0, 0, 0, 6, 9, 0, 0];
        [Header::EXAMPLE_12.write(), vec![0], poll.to_vec(), vec![3, 0, 0, 0]].concat()
    }

    /// The entry of 9 after it.
    const NINE: [u8; ENTRY] = [0, 0, 0, 1, 0, 0, 0, 0, 3, 0xe8, 0, 0, 0, 0, 3, 0xe8, 0];

    /// What is left by calls that the oracle makes, with this done to the table after each step.
    fn left(change: &dyn Fn(u8, &mut [u8])) -> (u64, Vec<u8>) {
        let runner = RefCell::new((Runner::new(&Header::EXAMPLE_12), Summary::default()));
        let open = |_: &[u8], station: &mut [u8]| {
            station[..STATION].fill(0);
            256 * STATION as u64
        };
        let step = |station: &mut [u8], entry: &[u8], answer: &mut [u8], table: &mut [u8]| {
            if station.len() < STATION {
                return 36;
            }
            let (first, after) = match Entry::first(entry) {
                Some(found) => found,
                None => return 17,
            };
            if answer.len() < 8 || table.len() < TABLE {
                return 18;
            }
            let (runner, summary) = &mut *runner.borrow_mut();
            let given = runner.entry(first);
            if let Entry::Poll(bytes) = first {
                if let Ok(record) = PollRecord::decode(1, bytes) {
                    summary.poll(&record, &given);
                    table[9 * ENTRY..][..ENTRY].copy_from_slice(&NINE);
                }
            }
            answer[..8].copy_from_slice(&given.encode());
            change(entry[0], table);
            256 * (entry.len() - after.len()) as u64
        };
        let counts = |station: &[u8], counts: &mut [u8]| match (station.len() < STATION, counts.get_mut(..COUNTS)) {
            (true, _) => 36,
            (false, None) => 18,
            (false, Some(counts)) => {
                counts.fill(0);
                0
            }
        };
        let heard = |table: &[u8], address: u8, entry: &mut [u8]| match (address > LAST, entry.get_mut(..ENTRY)) {
            (true, _) => 26,
            (false, None) => 18,
            (false, Some(entry)) => {
                entry.copy_from_slice(&table[ENTRY * usize::from(address)..][..ENTRY]);
                0
            }
        };
        let mut left = vec![0x5a; SAID + 3 * 8];
        let calls = Beside { open: &open, step: &step, counts: &counts, heard: &heard };
        (step_heard_trace(calls, &trace(), &mut left), left)
    }

    #[test]
    fn a_station_stepped_with_a_table_by_the_oracle_says_what_its_trace_says() {
        let mut expected = vec![0xa5; SAID + 3 * 8];
        assert_eq!(oracle_heard_trace(&trace(), &mut expected), 3 * 256);
        assert_eq!(expected[COUNTS + 9 * ENTRY..][..ENTRY], NINE);
        assert_eq!(left(&|_, _| ()), (3 * 256, expected));
        // room for one answer: nobody was heard yet
        let mut short = vec![0xa5; SAID + 15];
        assert_eq!(oracle_heard_trace(&trace(), &mut short), 256 + 18);
        assert_eq!(short[..SAID], [0; SAID]);
        let mut refused = vec![0xa5; SAID + 8];
        assert_eq!(oracle_heard_trace(&[200; 16], &mut refused), 1);
        assert_eq!(refused, vec![0xa5; SAID + 8]);
    }

    #[test]
    #[should_panic(expected = "what is refused, or a command, changes the table")]
    fn a_command_that_changes_the_table_is_found() {
        left(&|kind, table| table[0] += u8::from(kind == 0));
    }

    #[test]
    #[should_panic(expected = "what is refused, or a command, changes the table")]
    fn a_refused_entry_that_changes_the_table_is_found() {
        left(&|kind, table| table[0] += u8::from(kind == 3));
    }

    #[test]
    #[should_panic(expected = "a byte behind the table")]
    fn a_byte_behind_the_table_is_found() {
        left(&|_, table| table[TABLE] = 0);
    }
}
