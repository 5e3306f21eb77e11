//! What the call returns, and the text that the program `replay` prints.

use crate::answer::{answers, Answer, NotAnAnswer};
use crate::refusal::Refusal;
use std::fmt;

/// How a run of a trace ended.
#[derive(Debug, Clone, Copy, PartialEq, Eq, Hash)]
pub struct Run {
    /// How many entries were answered.
    pub entries: u64,
    /// Why the run ended before the end of the trace; none if it did not.
    pub ending: Option<Refusal>,
}

impl Run {
    /// A run with this many entries answered and this ending number.
    fn from_numbers(entries: u64, ending: u64) -> Result<Run, NotARun> {
        let refusal = |number| {
            let refusal = Refusal::try_from(u8::try_from(number).ok()?).ok();
            refusal.filter(|refusal| refusal.is_of_replays())
        };
        let ending = match ending {
            0 => None,
            number => Some(
                refusal(number)
                    .ok_or_else(|| NotARun(format!("{} is not an ending number", number)))?,
            ),
        };
        Ok(Run { entries, ending })
    }

    /// The run that a last line tells: entries and ending number.
    pub(crate) fn from_last_line(line: &str) -> Result<Run, NotARun> {
        let numbers = line
            .split_once(' ')
            .and_then(|(entries, ending)| Some((entries.parse().ok()?, ending.parse().ok()?)));
        let (entries, ending) = numbers.ok_or_else(|| {
            NotARun(format!(
                "the last line is not entries and ending number: {}",
                line
            ))
        })?;
        Run::from_numbers(entries, ending)
    }

    /// 0, or the number of the refusal.
    pub fn ending_number(&self) -> u8 {
        self.ending.map_or(0, Refusal::number)
    }
}

impl TryFrom<u64> for Run {
    type Error = NotARun;

    /// What the call returns: entries answered × 256 + ending number.
    fn try_from(returned: u64) -> Result<Run, NotARun> {
        Run::from_numbers(returned / 256, returned % 256)
    }
}

/// The text that `replay` prints: each answer as 16 hexadecimal digits, then entries and ending number.
pub fn to_text(answers: &[Answer], run: &Run) -> String {
    let mut text = String::new();
    for &answer in answers {
        text.push_str(&format!("{:016x}\n", u64::from(answer)));
    }
    text.push_str(&format!("{} {}\n", run.entries, run.ending_number()));
    text
}

/// The answers and the ending that `replay` printed.
pub fn from_text(text: &str) -> Result<(Vec<Answer>, Run), NotARun> {
    let mut lines: Vec<&str> = text.lines().collect();
    let last = lines
        .pop()
        .ok_or_else(|| NotARun("there is no line with entries and ending number".to_string()))?;
    let run = Run::from_last_line(last)?;
    if run.entries != lines.len() as u64 {
        return Err(NotARun(format!(
            "{} entries answered, but {} answers",
            run.entries,
            lines.len()
        )));
    }
    let mut read = Vec::new();
    for line in lines {
        let word =
            digits(line).ok_or_else(|| NotARun(format!("not 16 hexadecimal digits: {}", line)))?;
        read.push(Answer::try_from(word)?);
    }
    Ok((read, run))
}

/// The number that 16 hexadecimal digits give.
fn digits(line: &str) -> Option<u64> {
    if line.len() == 16 && line.bytes().all(|byte| byte.is_ascii_hexdigit()) {
        u64::from_str_radix(line, 16).ok()
    } else {
        None
    }
}

/// The answers of a run in the caller's buffer.
pub fn from_buffer(buffer: &[u8], run: &Run) -> Result<Vec<Answer>, NotAnAnswer> {
    answers(buffer).take(run.entries as usize).collect()
}

/// Something that no run returns or prints, in words.
#[derive(Debug, Clone, PartialEq, Eq, Hash)]
pub struct NotARun(String);

impl NotARun {
    pub(crate) fn of(words: String) -> NotARun {
        NotARun(words)
    }
}

impl fmt::Display for NotARun {
    fn fmt(&self, f: &mut fmt::Formatter) -> fmt::Result {
        write!(f, "not the answers of a replay: {}", self.0)
    }
}

impl std::error::Error for NotARun {}

impl From<NotAnAnswer> for NotARun {
    fn from(word: NotAnAnswer) -> NotARun {
        NotARun(word.to_string())
    }
}
