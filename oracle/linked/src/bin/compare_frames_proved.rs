//! Compares the proved calls on frames with the oracle's reader and writer: SEED COUNT.

use oracle::comparison::calls::main as compare;
use oracle::frames::compare::{compare_frames, made};

const USAGE: &str = "compare_frames_proved: usage: compare_frames_proved SEED COUNT, two whole numbers, COUNT above 0";

fn main() {
    let words: Vec<String> = std::env::args().skip(1).collect();
    let calls = |tries: &[_]| made(linked::read_frame, linked::write_frame, tries);
    let comparison = |seed, count| compare_frames(&calls, seed, count);
    std::process::exit(compare(USAGE, comparison, &words));
}
