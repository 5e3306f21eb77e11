//! Runs generated traces through the oracle and through another `replay_trace`, steps them one entry at a time by the other's
//! station, without a table of who was heard and with one, moves their headers by `other_edition` of both,
//! asks `trace_heard` of both for every address and both `trace_counts`, and holds the number and every byte of the buffer to
//! each other.

use super::run::{
    counts_otherwise, first_difference, hears_otherwise, moves_otherwise, parts_from_oracle, run, says_otherwise,
    steps_otherwise, Ask, Call, Calls, Count, Move, Question, Said,
};
use super::shorten::shorten;
use super::words;
use crate::coverage::Met;
use crate::generator::trace;
use crate::trace::{replay_trace, Trace};

/// Both answers in words, on a trace that differs.
fn describe(replay: Call, trace: &Trace) -> String {
    let (expected, got) = (run(&replay_trace, trace), run(replay, trace));
    let entry = first_difference(&expected, &got).unwrap_or(1);
    format!(
        "  the shortest trace found that differs, {} entries, a buffer of {} bytes filled with {:02x}:
    {}
  entry {} of it:
    the oracle:  {}
    the other:   {}
  returned:
    the oracle:  {}
    the other:   {}
",
        trace.entries.len(),
        trace.room,
        trace.fill,
        words::hex(&trace.bytes()),
        entry,
        words::answer(&expected, entry),
        words::answer(&got, entry),
        words::end(&expected),
        words::end(&got),
    )
}

/// What is left otherwise on a trace that is stepped with a table.
fn describe_said(call: Call, trace: &Trace, found: Said) -> String {
    let found = says_otherwise(call, trace).unwrap_or(found);
    format!(
        "  the shortest trace found that differs, {} entries, room for {} bytes of answers, filled with {:02x}:
    {}
  {}; left there, and returned:
    the oracle:  {}
    the other:   {}
",
        trace.entries.len(),
        trace.room,
        trace.fill,
        words::hex(&trace.bytes()),
        found.what,
        words::asked(&found.expected),
        words::asked(&found.got),
    )
}

/// What both calls left, on a header that is moved otherwise.
fn describe_move(found: &Move) -> String {
    format!(
        "  lent, {} bytes:
    {}
  a buffer of {} bytes filled with {:02x}; left in it and returned:
    the oracle:  {}
    the other:   {}
",
        found.lent.len(),
        words::hex(&found.lent),
        found.expected.buffer.len(),
        found.fill,
        words::moved(&found.expected),
        words::moved(&found.got),
    )
}

/// What both calls left, on a trace of which an address was heard otherwise.
fn describe_question(ask: Ask, trace: &Trace, found: Question) -> String {
    let found = hears_otherwise(ask, trace).unwrap_or(found);
    format!(
        "  the shortest trace found that differs, {} entries:
    {}
  asked for address {}, a buffer of {} bytes filled with {:02x}; left in it and returned:
    the oracle:  {}
    the other:   {}
",
        trace.entries.len(),
        words::hex(&trace.bytes()),
        found.address,
        found.expected.buffer.len(),
        trace.fill,
        words::asked(&found.expected),
        words::asked(&found.got),
    )
}

/// What both calls left, on a trace that is counted otherwise.
fn describe_count(call: Call, trace: &Trace, found: Count) -> String {
    let found = counts_otherwise(call, trace).unwrap_or(found);
    format!(
        "  the shortest trace found that differs, {} entries:
    {}
  a buffer of {} bytes filled with {:02x}; left in it (claims, removals, meetings) and returned:
    the oracle:  {}
    the other:   {}
",
        trace.entries.len(),
        words::hex(&trace.bytes()),
        found.expected.buffer.len(),
        trace.fill,
        words::asked(&found.expected),
        words::asked(&found.got),
    )
}

/// At most this many points that were never reached are named.
const NAMED: usize = 20;

/// So many traces reach everything. With fewer, what is missed is said but is no failure.
pub const ENOUGH: u64 = 20_000;

/// Compares `count` traces of the seed; gives the text to print and whether all of it held.
pub fn compare_traces(calls: Calls, seed: u64, count: u64) -> (String, bool) {
    let replay = calls.replay_trace;
    let mut met = Met::default();
    for index in 0..count {
        let made = trace(seed, index);
        if let Some(entry) = parts_from_oracle(replay, &made) {
            let shortest = describe(replay, &shorten(&|trace| parts_from_oracle(replay, trace).is_some(), &made));
            let at = format!("seed {}, trace {}, entry {}", seed, index, entry);
            return (format!("traces: {}: the answers differ\n{}", at, shortest), false);
        }
        if let Some(entry) = steps_otherwise(calls, &made) {
            let step = calls.step_trace;
            let shortest = describe(step, &shorten(&|trace| parts_from_oracle(step, trace).is_some(), &made));
            let at = format!("seed {}, trace {}, entry {}", seed, index, entry);
            return (format!("traces: {}: a station that is stepped answers otherwise\n{}", at, shortest), false);
        }
        if let Some(found) = says_otherwise(calls.step_heard_trace, &made) {
            let shortest = shorten(&|trace| says_otherwise(calls.step_heard_trace, trace).is_some(), &made);
            let said = describe_said(calls.step_heard_trace, &shortest, found);
            let at = format!("seed {}, trace {}", seed, index);
            return (format!("traces: {}: a station that is stepped with a table says otherwise\n{}", at, said), false);
        }
        if let Some(found) = moves_otherwise(calls.other_edition, &made) {
            let at = format!("seed {}, trace {}", seed, index);
            return (format!("traces: {}: the header moves otherwise\n{}", at, describe_move(&found)), false);
        }
        if let Some(found) = hears_otherwise(calls.trace_heard, &made) {
            let shortest = shorten(&|trace| found.differs_on(calls.trace_heard, trace), &made);
            let said = describe_question(calls.trace_heard, &shortest, found);
            let at = format!("seed {}, trace {}", seed, index);
            return (format!("traces: {}: an address was heard otherwise\n{}", at, said), false);
        }
        if let Some(found) = counts_otherwise(calls.trace_counts, &made) {
            let shortest = shorten(&|trace| counts_otherwise(calls.trace_counts, trace).is_some(), &made);
            let said = describe_count(calls.trace_counts, &shortest, found);
            let at = format!("seed {}, trace {}", seed, index);
            return (format!("traces: {}: the life is counted otherwise\n{}", at, said), false);
        }
        met.see(&made);
    }
    let points = met.points();
    let missed = points.missed();
    let mut said = format!("traces: what the generated traces reached:\n{}", points.report());
    let mut say = |line: String| said.push_str(&format!("traces: {}\n", line));
    missed.iter().take(NAMED).for_each(|point| say(format!("never reached: {}", point)));
    if missed.len() > NAMED {
        say(format!("never reached: {} more", missed.len() - NAMED));
    }
    points.unnamed().iter().take(NAMED).for_each(|point| say(format!("not as said: {}", point)));
    if missed.is_empty() {
        say(format!("all {} coverage points reached", points.size()));
    }
    say(format!("each stepped one entry at a time, {} entries, 0 differ", met.entries));
    say(format!("each stepped with a table, its counts and all addresses asked for, {} calls, 0 differ", met.beside));
    say(format!("their headers moved to the other edition and back, {} calls, 0 differ", met.moves));
    say(format!("each asked for every address that was heard or not, {} calls, 0 differ", met.asked));
    say(format!("each asked for the counts of its station's life, {} calls, 0 differ", met.counted));
    say(format!("seed {}, {} traces, {} entries, 0 differ", seed, met.traces, met.entries));
    let reached = missed.is_empty() || count < ENOUGH;
    (said, reached && points.unnamed().is_empty())
}

/// The whole program: `SEED COUNT`. Gives its exit status.
pub fn main(usage: &str, calls: Calls, words: &[String]) -> i32 {
    let numbers: Vec<Option<u64>> = words.iter().map(|word| word.parse().ok()).collect();
    match numbers.as_slice() {
        [Some(seed), Some(count)] if *count > 0 => {
            let (said, held) = compare_traces(calls, *seed, *count);
            print!("{}", said);
            i32::from(!held)
        }
        _ => {
            eprintln!("{}", usage);
            2
        }
    }
}
