//! Compares a program that makes the calls with the oracle, or, without one, the oracle with itself, which shows what
//! generated traces reach. `--show SEED INDEX` prints one trace in hex, for `replay_oracle --hex`; `--serve` is such a
//! program: it answers traces by the oracle.
#![forbid(unsafe_code)]

use oracle::comparison::program::{serve, Program};
use oracle::comparison::run::{Calls, ORACLE};
use oracle::comparison::{compare, hex};
use oracle::generator::trace;

const USAGE: &str = "compare_traces: usage: compare_traces SEED COUNT [-- PROGRAM [ARGUMENT..]], two whole numbers, \
                     COUNT above 0; or --show SEED INDEX; or --serve";

fn status(words: &[String]) -> i32 {
    match words {
        [show, seed, index] if show == "--show" => {
            if let (Ok(seed), Ok(index)) = (seed.parse(), index.parse()) {
                println!("{}", hex(&trace(seed, index).bytes()));
                return 0;
            }
        }
        [word] if word == "--serve" => return i32::from(serve().is_err()),
        [seed, count, dashes, program @ ..] if dashes == "--" => {
            return match Program::start(program) {
                Ok(program) => {
                    let replay_trace = |trace: &[u8], answers: &mut [u8]| program.replay_trace(trace, answers);
                    let other_edition = |header: &[u8], out: &mut [u8]| program.other_edition(header, out);
                    let trace_heard =
                        |trace: &[u8], address: u8, entry: &mut [u8]| program.trace_heard(trace, address, entry);
                    let trace_counts = |trace: &[u8], counts: &mut [u8]| program.trace_counts(trace, counts);
                    let step_trace = |trace: &[u8], answers: &mut [u8]| program.step_trace(trace, answers);
                    let step_heard_trace = |trace: &[u8], left: &mut [u8]| program.step_heard_trace(trace, left);
                    let calls = Calls {
                        replay_trace: &replay_trace,
                        other_edition: &other_edition,
                        trace_heard: &trace_heard,
                        trace_counts: &trace_counts,
                        step_trace: &step_trace,
                        step_heard_trace: &step_heard_trace,
                    };
                    compare::main(USAGE, calls, &[seed.clone(), count.clone()])
                }
                Err(error) => {
                    eprintln!("compare_traces: the program cannot be started: {}", error);
                    2
                }
            };
        }
        _ => {}
    }
    compare::main(USAGE, ORACLE, words)
}

fn main() {
    let words: Vec<String> = std::env::args().skip(1).collect();
    std::process::exit(status(&words));
}
