//! Replays a trace through the oracle and prints what the replay program of document 01's example 12
//! prints: each answer as 16 hex digits, then the entries answered and the ending number.
#![forbid(unsafe_code)]

use oracle::trace::{replay_trace, ANSWER};
use std::io::Read;

const USAGE: &str = "replay_oracle: usage: replay_oracle [FILE | --hex DIGITS]; without a word it reads at most 4096 bytes of standard input";

/// "It reads at most 4,096 bytes and treats these as the trace."
const READ_AT_MOST: u64 = 4096;

/// The bytes that pairs of hex digits stand for.
fn bytes_of_hex(digits: &str) -> Option<Vec<u8>> {
    if !digits.is_ascii() || digits.len() % 2 != 0 {
        return None;
    }
    (0..digits.len() / 2).map(|i| u8::from_str_radix(&digits[2 * i..2 * i + 2], 16).ok()).collect()
}

/// The trace that the command line names.
fn trace_of(words: &[String]) -> Result<Vec<u8>, String> {
    let words: Vec<&str> = words.iter().map(String::as_str).collect();
    match words.as_slice() {
        [] => {
            let mut trace = Vec::new();
            let mut input = std::io::stdin().take(READ_AT_MOST);
            match input.read_to_end(&mut trace) {
                Ok(_) => Ok(trace),
                Err(e) => Err(format!("replay_oracle: standard input cannot be read: {}", e)),
            }
        }
        ["--hex", digits] => {
            bytes_of_hex(digits).ok_or_else(|| "replay_oracle: --hex wants pairs of hex digits".to_string())
        }
        [file] if !file.starts_with("--") => {
            std::fs::read(file).map_err(|e| format!("replay_oracle: {} cannot be read: {}", file, e))
        }
        _ => Err(USAGE.to_string()),
    }
}

fn main() {
    let words: Vec<String> = std::env::args().skip(1).collect();
    let trace = match trace_of(&words) {
        Ok(trace) => trace,
        Err(said) => {
            eprintln!("{}", said);
            std::process::exit(2);
        }
    };
    // an entry has at least one byte
    let mut answers = vec![0; ANSWER * trace.len()];
    let number = replay_trace(&trace, &mut answers);
    let (entries, ending) = (number / 256, number % 256);
    for answer in answers.chunks(ANSWER).take(entries as usize) {
        let digits: String = answer.iter().map(|byte| format!("{:02x}", byte)).collect();
        println!("{}", digits);
    }
    println!("{} {}", entries, ending);
}
