//! What a call left, in words.

use super::run::Left;
use crate::records;
use crate::trace::ANSWER;

/// Bytes as hex digits.
pub fn hex(bytes: &[u8]) -> String {
    bytes.iter().map(|byte| format!("{:02x}", byte)).collect()
}

/// The names of an answer's fields.
const NAMES: [&str; 16] = [
    "refusal",
    "outcome",
    "state",
    "sent",
    "destination",
    "type",
    "application",
    "high",
    "bytes",
    "consumed",
    "notice",
    "its application",
    "its address",
    "next application",
    "next station",
    "zero",
];

/// The answer to an entry, counted from 1.
pub fn answer(left: &Left, entry: usize) -> String {
    match left.buffer.chunks_exact(ANSWER).nth(entry - 1) {
        Some(bytes) => {
            let fields = NAMES.iter().zip(records::split(records::ANSWER, bytes));
            let named: Vec<String> = fields.map(|(name, value)| format!("{} {}", name, value)).collect();
            format!("{} ({})", hex(bytes), named.join(", "))
        }
        None => "no answer there".to_string(),
    }
}

/// How the call ended.
pub fn end(left: &Left) -> String {
    returned(left, "entries, ending")
}

/// What a call that moves a header left.
pub fn moved(left: &Left) -> String {
    format!("{}: {}", hex(&left.buffer), returned(left, "bytes written, number"))
}

/// What a call left that was asked for an address or for the counts.
pub fn asked(left: &Left) -> String {
    format!("{}: {}", hex(&left.buffer), returned(left, "entries, ending"))
}

/// The number that the call returned, in its two parts with these words between them.
fn returned(left: &Left, between: &str) -> String {
    let number = match left.number {
        Some(number) => format!("{} {} {}", number / 256, between, number % 256),
        None => "nothing: it ended without an answer, or changed bytes outside of its buffer".to_string(),
    };
    number + if left.outside_kept { "" } else { ", and bytes outside of the buffer were changed" }
}
