//! Document 02, P6: how often a station claimed the token, removed a neighbour and met its own address. The call is there where
//! the static library is linked (see [`crate::replay`]).

use crate::bits::{Reader, Writer};
use crate::run::{NotARun, Run};

/// The length of the counts in bytes.
pub const COUNTS_LENGTH: usize = 12;

/// The counts of a station's life. Each stops at 2^32 - 1; going offline keeps them.
#[derive(Debug, Clone, Copy, Default, PartialEq, Eq, Hash)]
pub struct Counts {
    /// Lost tokens claimed.
    pub claims: u32,
    /// Neighbours removed after a third token to which nobody was heard.
    pub removals: u32,
    /// Collisions counted: our own address was heard as source.
    pub meetings: u32,
}

impl Counts {
    /// What the counts' 12 bytes say.
    ///
    /// ```
    /// use amsulfezd::counts::Counts;
    ///
    /// let counts = Counts { claims: 1, removals: 256, meetings: 3 };
    /// assert_eq!(Counts::from_bytes(&[0, 0, 0, 1, 0, 0, 1, 0, 0, 0, 0, 3]), counts);
    /// assert_eq!(counts.to_bytes(), [0, 0, 0, 1, 0, 0, 1, 0, 0, 0, 0, 3]);
    /// ```
    pub fn from_bytes(bytes: &[u8; COUNTS_LENGTH]) -> Counts {
        let mut word = Reader::of_bytes(bytes);
        Counts {
            claims: word.take(32) as u32,
            removals: word.take(32) as u32,
            meetings: word.take(32) as u32,
        }
    }

    /// The counts' 12 bytes.
    pub fn to_bytes(self) -> [u8; COUNTS_LENGTH] {
        let mut word = Writer::default();
        for count in [self.claims, self.removals, self.meetings] {
            word.put(32, u64::from(count));
        }
        word.bytes(COUNTS_LENGTH).try_into().expect("12 bytes")
    }
}

/// The text that the program `counts_file` prints: the three counts on a line, none where the header is refused; then entries and
/// ending number.
pub fn to_text(counts: Option<Counts>, run: &Run) -> String {
    let line = counts.map_or(String::new(), |counts| {
        format!(
            "{} {} {}\n",
            counts.claims, counts.removals, counts.meetings
        )
    });
    format!("{}{} {}\n", line, run.entries, run.ending_number())
}

/// What `counts_file` printed.
pub fn from_text(text: &str) -> Result<(Option<Counts>, Run), NotARun> {
    let mut lines: Vec<&str> = text.lines().collect();
    let run = Run::from_last_line(lines.pop().unwrap_or(""))?;
    let counts = match lines[..] {
        [] => None,
        [line] => Some(
            counts_of(line).ok_or_else(|| NotARun::of(format!("not three counts: {}", line)))?,
        ),
        _ => return Err(NotARun::of("more than one line of counts".to_string())),
    };
    Ok((counts, run))
}

/// The three counts of a line.
fn counts_of(line: &str) -> Option<Counts> {
    let numbers: Vec<u32> = line
        .split(' ')
        .map(|word| word.parse().ok())
        .collect::<Option<_>>()?;
    match numbers[..] {
        [claims, removals, meetings] => Some(Counts {
            claims,
            removals,
            meetings,
        }),
        _ => None,
    }
}
