//! Compares a program that imports and exports captures with the oracle, or, without one, the oracle with itself, which shows
//! what is tried. `--serve` is such a program: it makes the calls by the oracle.
#![forbid(unsafe_code)]

use oracle::captures::compare::compare_captures;
use oracle::comparison::calls_program::main as compare;

fn main() {
    let words: Vec<String> = std::env::args().skip(1).collect();
    std::process::exit(compare("compare_captures", compare_captures, &words));
}
