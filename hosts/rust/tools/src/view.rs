//! What is shown of a replay: all its entries or a range of them, the notes that stand beside the trace, and the counts of the
//! station's life.

use crate::explain::thousands;
use amsulfezd::counts::Counts;
use std::fmt;

/// What is shown of a replay. Of itself it shows every entry, no note and no counts.
#[derive(Debug, Clone, Default)]
pub struct View {
    /// None shows every entry.
    pub range: Option<Range>,
    pub notes: Vec<Note>,
    /// The counts at the end of the whole trace, as the proved call gave them; none if they are not shown, or there are none.
    pub counts: Option<Counts>,
}

impl View {
    /// The indices, from 0, of the entries that are shown of so many.
    pub fn shown(&self, entries: usize) -> std::ops::Range<usize> {
        match self.range {
            Some(range) => range.first - 1..range.last,
            None => 0..entries,
        }
    }
}

/// Some of a trace's answered entries, by their numbers from 1; the last is one of them.
#[derive(Debug, Clone, Copy, PartialEq, Eq)]
pub struct Range {
    first: usize,
    last: usize,
    entries: usize,
}

impl Range {
    /// The range that the words after `--from` and `--to` ask for, of so many answered entries. Without the one it begins
    /// with the first entry, without the other it ends with the last.
    pub fn of(from: Option<&str>, to: Option<&str>, entries: usize) -> Result<Range, BadRange> {
        let first = from.map_or(Ok(1), |word| entry_number("--from", word, entries))?;
        let last = to.map_or(Ok(entries), |word| entry_number("--to", word, entries))?;
        if first > last {
            return Err(BadRange(format!("--from {} is after --to {}", first, last)));
        }
        Ok(Range {
            first,
            last,
            entries,
        })
    }
}

impl fmt::Display for Range {
    fn fmt(&self, f: &mut fmt::Formatter) -> fmt::Result {
        write!(
            f,
            "Entries {} to {} of {}",
            self.first, self.last, self.entries
        )
    }
}

/// The number of one of so many entries.
fn entry_number(name: &str, word: &str, entries: usize) -> Result<usize, BadRange> {
    match decimal(word) {
        None | Some(0) => Err(BadRange(format!(
            "{} {} is not an entry's number; they count from 1",
            name, word
        ))),
        Some(number) if number > entries as u64 => Err(BadRange(format!(
            "{} {} is beyond the trace; entries answered: {}",
            name, number, entries
        ))),
        Some(number) => Ok(number as usize),
    }
}

/// The number that a word of digits is, if it has 64 bits.
fn decimal(word: &str) -> Option<u64> {
    let digits = word.bytes().all(|byte| byte.is_ascii_digit());
    word.parse().ok().filter(|_| digits)
}

/// Why a range is none of the trace's.
#[derive(Debug, Clone, PartialEq, Eq)]
pub struct BadRange(String);

impl fmt::Display for BadRange {
    fn fmt(&self, f: &mut fmt::Formatter) -> fmt::Result {
        f.write_str(&self.0)
    }
}

impl std::error::Error for BadRange {}

/// Something that happened beside the bus, such as a plug that was pulled: no record of a trace tells it.
#[derive(Debug, Clone, PartialEq, Eq)]
pub struct Note {
    /// When it happened, by the clock of the polls.
    pub clock: u64,
    pub words: String,
}

/// The largest clock of a poll record.
const LAST_CLOCK: u64 = (1 << 48) - 1;

/// The notes of a text: each line is a clock in microseconds, a space, and words.
pub fn notes(text: &str) -> Result<Vec<Note>, BadNote> {
    text.lines()
        .enumerate()
        .map(|(index, line)| {
            note(line).map_err(|why| BadNote {
                line: index + 1,
                why,
            })
        })
        .collect()
}

/// The note of a line.
fn note(line: &str) -> Result<Note, String> {
    let (clock, words) = line.split_once(' ').unwrap_or((line, ""));
    let clock = decimal(clock)
        .filter(|&clock| clock <= LAST_CLOCK)
        .ok_or_else(|| {
            format!(
                "{:?} is not a clock from 0 to {}",
                clock,
                thousands(LAST_CLOCK)
            )
        })?;
    if words.trim().is_empty() {
        return Err("there are no words after the clock".to_string());
    }
    if words.contains(char::is_control) {
        return Err("the words have a control character".to_string());
    }
    Ok(Note {
        clock,
        words: words.trim().to_string(),
    })
}

/// Why a text has no notes.
#[derive(Debug, Clone, PartialEq, Eq)]
pub struct BadNote {
    line: usize,
    why: String,
}

impl fmt::Display for BadNote {
    fn fmt(&self, f: &mut fmt::Formatter) -> fmt::Result {
        write!(f, "line {}: {}", self.line, self.why)
    }
}

impl std::error::Error for BadNote {}
