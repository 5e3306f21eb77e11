//! Compares the proved calls that simulate several stations on one bus with the oracle's, and holds each station's part of the
//! proved report to the proved trace call on the proved trace: SEED COUNT.

use oracle::comparison::calls::main as compare;
use oracle::simulations::compare::{compare_answers, compare_simulations, made};

const USAGE: &str =
    "compare_simulations_proved: usage: compare_simulations_proved SEED COUNT, two whole numbers, COUNT above 0";

fn main() {
    let words: Vec<String> = std::env::args().skip(1).collect();
    let calls = |tries: &[_]| made(linked::simulate, linked::simulated_trace, tries);
    let comparison = |seed, count| {
        let (answers, answered) =
            compare_answers(linked::simulate, linked::simulated_trace, linked::replay_trace, seed, count);
        let (said, held) = compare_simulations(&calls, seed, count);
        (answers + &said, answered && held)
    };
    std::process::exit(compare(USAGE, comparison, &words));
}
