//! Compares a program that simulates a bus with the oracle, or, without one, the oracle with itself, which shows what is tried.
//! `--serve` is such a program: it makes the calls by the oracle.
#![forbid(unsafe_code)]

use oracle::comparison::calls_program::main as compare;
use oracle::simulations::compare::compare_simulations;

fn main() {
    let words: Vec<String> = std::env::args().skip(1).collect();
    std::process::exit(compare("compare_simulations", compare_simulations, &words));
}
