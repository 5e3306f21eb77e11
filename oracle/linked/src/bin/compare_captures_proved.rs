//! Compares the proved calls on captures with the oracle's importer and exporter: SEED COUNT.

use oracle::captures::compare::{compare_captures, made};
use oracle::comparison::calls::main as compare;

const USAGE: &str =
    "compare_captures_proved: usage: compare_captures_proved SEED COUNT, two whole numbers, COUNT above 0";

fn main() {
    let words: Vec<String> = std::env::args().skip(1).collect();
    let calls = |tries: &[_]| made(linked::import_capture, linked::export_capture, tries);
    let comparison = |seed, count| compare_captures(&calls, seed, count);
    std::process::exit(compare(USAGE, comparison, &words));
}
