//! The calls on frames, as the comparison of calls makes them.

use super::frame::{read_frame, write_frame};
use super::met::Met;
use super::tries::{parts, Try};
use crate::comparison::calls::{self, Asked, Calls, Left, Made};
use crate::comparison::hex;

/// What a reader and a writer leave.
fn made_by(read: fn(&[u8]) -> u64, write: fn(u32, &mut [u8]) -> u64, one: &Try) -> Made {
    match one {
        Try::Read(frame) => Made::of(read(frame), Vec::new()),
        Try::Write(word, buffer) => {
            let mut buffer = buffer.clone();
            Made::of(write(*word, &mut buffer), buffer)
        }
    }
}

/// What a reader and a writer in this process leave.
pub fn made(read: fn(&[u8]) -> u64, write: fn(u32, &mut [u8]) -> u64, tries: &[Try]) -> Vec<Left> {
    tries.iter().map(|one| Some(made_by(read, write, one))).collect()
}

impl calls::Try for Try {
    const NAME: &'static str = "frames";

    fn by_oracle(&self) -> Made {
        made_by(read_frame, write_frame, self)
    }

    fn in_words(&self) -> String {
        match self {
            Try::Read(frame) => format!("a frame of {} bytes: {}", frame.len(), hex(frame)),
            Try::Write(word, buffer) => format!("word {:08x}, {} bytes: {}", word, buffer.len(), hex(buffer)),
        }
    }

    fn left_in_words(&self, made: &Made) -> String {
        let number = made.returned;
        match self {
            Try::Read(_) if number < 256 => format!("refused with {}", number),
            Try::Read(_) => {
                format!("word {:08x}, {} bytes used, number {}", number / 65536, number / 256 % 256, number % 256)
            }
            Try::Write(..) => {
                let buffer = hex(&made.buffer);
                format!("{} bytes written, number {}; the buffer: {}", number / 256, number % 256, buffer)
            }
        }
    }

    /// The shorter starts of the frame, or the smaller rooms.
    fn smaller(&self) -> Box<dyn Iterator<Item = Try> + '_> {
        match self {
            Try::Read(frame) => Box::new((0..frame.len()).map(|end| Try::Read(frame[..end].to_vec()))),
            Try::Write(word, buffer) => {
                Box::new((0..buffer.len()).map(|end| Try::Write(*word, buffer[..end].to_vec())))
            }
        }
    }

    fn asked(&self) -> Asked<'_> {
        match self {
            Try::Read(frame) => Asked { which: 0, word: 0, lent: frame, buffer: &[] },
            Try::Write(word, buffer) => Asked { which: 1, word: *word, lent: &[], buffer },
        }
    }

    fn of_asked(asked: Asked) -> Try {
        match asked.which {
            0 => Try::Read(asked.lent.to_vec()),
            _ => Try::Write(asked.word, asked.buffer.to_vec()),
        }
    }
}

/// Compares all calls of the seed with `count` frames made at random.
pub fn compare_frames(calls: Calls<Try>, seed: u64, count: u64) -> (String, bool) {
    calls::compare::<Try, Met>(calls, parts(seed, count), seed)
}
