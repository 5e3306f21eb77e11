//! Makes a call on a trace or a header, and finds where what it left parts from what the oracle's call left.

use super::beside::{oracle_heard_trace, SAID};
use crate::counts::{self, count, trace_counts, COUNTS};
use crate::coverage::counts::ROOMS as COUNT_ROOMS;
use crate::coverage::heard::questions;
use crate::coverage::moves::{lent, ROOMS};
use crate::editions::other_edition;
use crate::heard::{asked, summarize, trace_heard, ENTRY};
use crate::trace::{replay_trace, Trace, ANSWER};
use std::panic::{catch_unwind, AssertUnwindSafe};

/// A call that is lent bytes to read and a buffer to write.
pub type Call<'a> = &'a dyn Fn(&[u8], &mut [u8]) -> u64;

/// A call that is lent a trace to read, an address, and a buffer to write.
pub type Ask<'a> = &'a dyn Fn(&[u8], u8, &mut [u8]) -> u64;

/// The calls that are compared.
#[derive(Clone, Copy)]
pub struct Calls<'a> {
    pub replay_trace: Call<'a>,
    pub other_edition: Call<'a>,
    pub trace_heard: Ask<'a>,
    pub trace_counts: Call<'a>,
    /// What `replay_trace` returns and leaves, by a station that is opened and stepped one entry at a time.
    pub step_trace: Call<'a>,
    /// The same with a table of who was heard, and what is said at the end: see `beside`.
    pub step_heard_trace: Call<'a>,
}

/// The oracle's own.
pub const ORACLE: Calls = Calls {
    replay_trace: &replay_trace,
    other_edition: &other_edition,
    trace_heard: &trace_heard,
    trace_counts: &trace_counts,
    step_trace: &replay_trace,
    step_heard_trace: &oracle_heard_trace,
};

/// What a call left: the number it returned, `None` if it panicked, and the whole buffer.
#[derive(Debug, Clone, PartialEq, Eq)]
pub struct Left {
    pub number: Option<u64>,
    pub buffer: Vec<u8>,
    /// Whether the bytes around the buffer and those lent to be read are as they were.
    pub outside_kept: bool,
}

/// So many bytes before and after the buffer are watched.
const AROUND: usize = 64;

/// Makes the call on these bytes, with a buffer of this length filled with this byte.
fn run_on(call: Call, given: &[u8], room: usize, fill: u8) -> Left {
    let bytes = given.to_vec();
    let mut space = vec![!fill; room + 2 * AROUND];
    let end = AROUND + room;
    space[AROUND..end].fill(fill);
    let buffer = &mut space[AROUND..end];
    let number = catch_unwind(AssertUnwindSafe(|| call(&bytes, buffer))).ok();
    let around = space[..AROUND].iter().chain(&space[end..]);
    let outside_kept = bytes == given && around.copied().all(|byte| byte == !fill);
    Left { number, buffer: space[AROUND..end].to_vec(), outside_kept }
}

/// Makes the call on a trace with the buffer that belongs to it.
pub fn run(replay: Call, trace: &Trace) -> Left {
    run_on(replay, &trace.bytes(), trace.room, trace.fill)
}

/// The entry of the first difference, counted from 1; `None` if the two are the same. A number or a
/// byte outside that differs alone counts as the entry after the last.
pub fn first_difference(expected: &Left, got: &Left) -> Option<usize> {
    if expected == got {
        return None;
    }
    let answers = expected.buffer.chunks(ANSWER).zip(got.buffer.chunks(ANSWER));
    let answered = expected.number.or(got.number).unwrap_or(0) as usize / 256;
    Some(match answers.map(|(a, b)| a != b).position(|differs| differs) {
        Some(entry) => entry + 1,
        None => answered + 1,
    })
}

/// The entry at which a call parts from the oracle on this trace, if it does.
pub fn parts_from_oracle(replay: Call, trace: &Trace) -> Option<usize> {
    first_difference(&run(&replay_trace, trace), &run(replay, trace))
}

/// The entry at which a trace that is stepped parts from the same calls' replay of it, if it does.
pub fn steps_otherwise(calls: Calls, trace: &Trace) -> Option<usize> {
    first_difference(&run(calls.replay_trace, trace), &run(calls.step_trace, trace))
}

/// Something that is left otherwise than by the oracle where a trace is stepped with a table.
pub struct Said {
    pub what: String,
    pub expected: Left,
    pub got: Left,
}

/// The first such thing on this trace, if there is one.
pub fn says_otherwise(call: Call, trace: &Trace) -> Option<Said> {
    let bytes = trace.bytes();
    let expected = run_on(&oracle_heard_trace, &bytes, SAID + trace.room, trace.fill);
    let got = run_on(call, &bytes, SAID + trace.room, trace.fill);
    if expected == got {
        return None;
    }
    let (at, end, what) = match expected.buffer.iter().zip(&got.buffer).position(|(a, b)| a != b) {
        None => (0, 0, "what is returned".to_string()),
        Some(at) if at < COUNTS => (0, COUNTS, "the counts".to_string()),
        Some(at) if at < SAID => {
            let address = (at - COUNTS) / ENTRY;
            let from = COUNTS + ENTRY * address;
            (from, from + ENTRY, format!("address {}", address))
        }
        Some(at) => {
            let entry = (at - SAID) / ANSWER;
            let from = SAID + ANSWER * entry;
            (from, expected.buffer.len().min(from + ANSWER), format!("the answer to entry {}", entry + 1))
        }
    };
    let part = |left: Left| Left { buffer: left.buffer[at..end].to_vec(), ..left };
    Some(Said { what, expected: part(expected), got: part(got) })
}

/// A move of a header to the other edition on which a call parts from the oracle.
pub struct Move {
    pub lent: Vec<u8>,
    pub fill: u8,
    pub expected: Left,
    pub got: Left,
}

/// The first move of this trace's header on which a call parts from the oracle, if it does.
pub fn moves_otherwise(call: Call, trace: &Trace) -> Option<Move> {
    for lent in lent(trace) {
        for room in ROOMS {
            let expected = run_on(&other_edition, &lent, room, trace.fill);
            let got = run_on(call, &lent, room, trace.fill);
            if expected != got {
                return Some(Move { lent, fill: trace.fill, expected, got });
            }
        }
    }
    None
}

/// A question who was heard on which a call parts from the oracle.
pub struct Question {
    pub address: u8,
    pub expected: Left,
    pub got: Left,
}

impl Question {
    /// Whether the call parts from the oracle on another trace, asked the same.
    pub fn differs_on(&self, ask: Ask, trace: &Trace) -> bool {
        let asked = (self.address, self.expected.buffer.len());
        first_question(ask, trace, &[asked]).is_some()
    }
}

/// The first question on this trace on which a call parts from the oracle, if it does.
pub fn hears_otherwise(ask: Ask, trace: &Trace) -> Option<Question> {
    first_question(ask, trace, &questions())
}

/// The same of these addresses, each with its room. The oracle runs the trace once.
fn first_question(ask: Ask, trace: &Trace, questions: &[(u8, usize)]) -> Option<Question> {
    let bytes = trace.bytes();
    let run = summarize(&bytes);
    questions.iter().find_map(|&(address, room)| {
        let expected = run_on(&|_, entry| asked(&run, address, entry), &bytes, room, trace.fill);
        let got = run_on(&|trace, entry| ask(trace, address, entry), &bytes, room, trace.fill);
        (expected != got).then_some(Question { address, expected, got })
    })
}

/// Counts on which a call parts from the oracle.
pub struct Count {
    pub expected: Left,
    pub got: Left,
}

/// The first room with which a call parts from the oracle on this trace's counts, if it does. The oracle runs the trace once.
pub fn counts_otherwise(call: Call, trace: &Trace) -> Option<Count> {
    let bytes = trace.bytes();
    let run = count(&bytes);
    COUNT_ROOMS.iter().find_map(|&room| {
        let expected = run_on(&|_, counts| counts::asked(&run, counts), &bytes, room, trace.fill);
        let got = run_on(call, &bytes, room, trace.fill);
        (expected != got).then_some(Count { expected, got })
    })
}
