//! The calls on captures, as the comparison of calls makes them.

use super::capture::{export_capture, import_capture};
use super::met::Met;
use super::tries::{parts, Try};
use crate::comparison::calls::{self, Asked, Calls, Left, Made};
use crate::comparison::hex;

/// An importer or an exporter: what is lent, the buffer, the refused line or entry, the bytes written.
pub type Call = fn(&[u8], &mut [u8], &mut u64, &mut u64) -> u64;

/// What the two numbers hold before a call, so that one that is not written is found.
const BEFORE: [u64; 2] = [0xa5a5_a5a5_a5a5_a5a5, 0x5a5a_5a5a_5a5a_5a5a];

/// What an importer and an exporter leave.
fn made_by(import: Call, export: Call, one: &Try) -> Made {
    let (call, bytes, buffer) = match one {
        Try::Import(text, entries) => (import, text, entries),
        Try::Export(entries, text) => (export, entries, text),
    };
    let (mut buffer, [mut place, mut written]) = (buffer.clone(), BEFORE);
    let returned = call(bytes, &mut buffer, &mut place, &mut written);
    Made { returned, lent: [place, written], buffer }
}

/// What an importer and an exporter in this process leave.
pub fn made(import: Call, export: Call, tries: &[Try]) -> Vec<Left> {
    tries.iter().map(|one| Some(made_by(import, export, one))).collect()
}

/// Bytes as text, those that are none by their numbers.
fn quoted(bytes: &[u8]) -> String {
    let said: String = bytes.iter().map(|byte| std::ascii::escape_default(*byte).to_string()).collect();
    format!("\"{}\"", said)
}

/// The bytes without one of the parts that they fall into: first without one half of them, then without each.
fn without(parts: &[&[u8]]) -> Vec<Vec<u8>> {
    let half = parts.len() / 2;
    let mut fewer = Vec::new();
    if half > 0 {
        fewer.push(parts[..half].concat());
        fewer.push(parts[half..].concat());
    }
    for out in 0..parts.len() {
        fewer.push([&parts[..out], &parts[out + 1..]].concat().concat());
    }
    fewer
}

impl calls::Try for Try {
    const NAME: &'static str = "captures";

    fn by_oracle(&self) -> Made {
        made_by(import_capture, export_capture, self)
    }

    fn in_words(&self) -> String {
        match self {
            Try::Import(text, entries) => {
                format!("a text of {} bytes, room for {}: {}", text.len(), entries.len(), quoted(text))
            }
            Try::Export(entries, text) => {
                format!("entries of {} bytes, room for {}: {}", entries.len(), text.len(), hex(entries))
            }
        }
    }

    fn left_in_words(&self, made: &Made) -> String {
        let [place, written] = made.lent;
        let said = |place_name, buffer| {
            format!(
                "number {}, {} {}, {} bytes written; the buffer: {}",
                made.returned, place_name, place, written, buffer
            )
        };
        match self {
            Try::Import(..) => said("line", hex(&made.buffer)),
            Try::Export(..) => said("entry", quoted(&made.buffer)),
        }
    }

    /// Fewer lines or entries; then a smaller buffer; then a byte less.
    fn smaller(&self) -> Box<dyn Iterator<Item = Try> + '_> {
        let (bytes, buffer, parts) = match self {
            Try::Import(text, entries) => (text, entries, text.split_inclusive(|byte| *byte == b'\n').collect()),
            Try::Export(entries, text) => (entries, text, whole_entries(entries)),
        };
        let again = move |bytes: Vec<u8>, buffer: Vec<u8>| match self {
            Try::Import(..) => Try::Import(bytes, buffer),
            Try::Export(..) => Try::Export(bytes, buffer),
        };
        let fewer = without(&parts).into_iter().map(move |bytes| again(bytes, buffer.clone()));
        let rooms = (0..buffer.len()).map(move |end| again(bytes.clone(), buffer[..end].to_vec()));
        let shorter =
            (0..bytes.len()).map(move |out| again([&bytes[..out], &bytes[out + 1..]].concat(), buffer.clone()));
        Box::new(fewer.chain(rooms).chain(shorter))
    }

    fn asked(&self) -> Asked<'_> {
        let (which, lent, buffer) = match self {
            Try::Import(text, entries) => (2, text, entries),
            Try::Export(entries, text) => (3, entries, text),
        };
        Asked { which, word: 0, lent, buffer }
    }

    fn of_asked(asked: Asked) -> Try {
        let (lent, buffer) = (asked.lent.to_vec(), asked.buffer.to_vec());
        match asked.which {
            2 => Try::Import(lent, buffer),
            _ => Try::Export(lent, buffer),
        }
    }
}

/// The entries, each with its first byte; one that is cut is the last.
fn whole_entries(mut rest: &[u8]) -> Vec<&[u8]> {
    let mut entries = Vec::new();
    while let Some(first) = rest.first() {
        let length = if *first < 3 { 1 } else { 1 + usize::from(*first) };
        let (entry, after) = rest.split_at(length.min(rest.len()));
        entries.push(entry);
        rest = after;
    }
    entries
}

/// Compares all calls of the seed with `count` texts and as many lists of entries made at random.
pub fn compare_captures(calls: Calls<Try>, seed: u64, count: u64) -> (String, bool) {
    calls::compare::<Try, Met>(calls, parts(seed, count), seed)
}
