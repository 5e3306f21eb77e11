//! Compares the proved calls with the oracle's on seeded traces: SEED COUNT.

use oracle::comparison::compare;
use oracle::comparison::run::{Call, Calls, ORACLE};
use oracle::counts::COUNTS;
use oracle::editions::Edition;
use oracle::trace::{Header, LONGEST};

const USAGE: &str = "compare_proved: usage: compare_proved SEED COUNT, two whole numbers, COUNT above 0";

/// The calls of the static library.
const PROVED: Calls = Calls {
    replay_trace: &linked::replay_trace,
    other_edition: &linked::other_edition,
    trace_heard: &linked::trace_heard,
    trace_counts: &linked::trace_counts,
    step_trace: &linked::step_trace,
    step_heard_trace: &linked::step_heard_trace,
};

/// Traces of 2^32 bytes and one more, with good headers of both editions and a bad one and room for two answers: the longer
/// ones are not replayed but refused with 17 before all else; their headers move as others do. Sixteen bytes are no room for
/// what is asked of an address, which is said before the run, and of an address above 125 first of all; eleven are none for
/// the counts. `None` if there is no room for such traces.
fn longest_traces() -> Option<Result<(), String>> {
    for length in [LONGEST, LONGEST + 1] {
        let good = [Edition::First, Edition::Second].map(|edition| Header::EXAMPLE_12.write_as(edition));
        for header in good.iter().chain(&[vec![200; 16]]) {
            let trace = linked::long_trace(header, usize::try_from(length).ok()?)?;
            let heard = |calls: Calls<'static>, address: u8| {
                move |trace: &[u8], entry: &mut [u8]| (calls.trace_heard)(trace, address, entry)
            };
            let counts = |calls: Calls<'static>| {
                move |trace: &[u8], counts: &mut [u8]| (calls.trace_counts)(trace, &mut counts[..COUNTS - 1])
            };
            let calls: [(&str, Call, Call); 5] = [
                ("replay_trace", ORACLE.replay_trace, PROVED.replay_trace),
                ("other_edition", ORACLE.other_edition, PROVED.other_edition),
                ("trace_heard", &heard(ORACLE, 5), &heard(PROVED, 5)),
                ("trace_heard for 126", &heard(ORACLE, 126), &heard(PROVED, 126)),
                ("trace_counts", &counts(ORACLE), &counts(PROVED)),
            ];
            for (name, oracle, proved) in calls {
                let (mut ours, mut theirs) = ([0xa5; 16], [0xa5; 16]);
                let (expected, got) = (oracle(trace, &mut ours), proved(trace, &mut theirs));
                if (expected, ours) != (got, theirs) {
                    return Some(Err(format!(
                        "traces: {} bytes, header byte {}, {}: the oracle returns {}, the proved call {}, or their buffers differ",
                        length, header[0], name, expected, got
                    )));
                }
            }
        }
    }
    Some(Ok(()))
}

fn main() {
    let words: Vec<String> = std::env::args().skip(1).collect();
    let status = compare::main(USAGE, PROVED, &words);
    if status != 0 {
        std::process::exit(status);
    }
    match longest_traces() {
        None => println!("traces: none of 2^32 bytes: this machine has no room for them"),
        Some(Ok(())) => println!("traces: 3 of 2^32 bytes and 3 of one byte more, 0 differ"),
        Some(Err(said)) => {
            println!("{}", said);
            std::process::exit(1);
        }
    }
}
