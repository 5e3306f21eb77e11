//! Why a command ended without doing all that it was asked for.

use amsulfezd::refusal::Refusal;
use std::fmt;

/// One line, and the status that the program ends with.
#[derive(Debug, Clone, PartialEq, Eq)]
pub enum Failure {
    /// The input was read, and its content is refused: status 1.
    Refused(String),
    /// The command cannot be done as it was asked: status 2.
    Usage(String),
}

impl Failure {
    pub fn status(&self) -> u8 {
        match self {
            Failure::Refused(_) => 1,
            Failure::Usage(_) => 2,
        }
    }

    /// A refusal with its place: number, words, and the rule where the words alone do not say it.
    pub fn refusal(place: &str, refusal: Refusal) -> Failure {
        Failure::Refused(format!("{}: {}", place, refused(refusal)))
    }

    /// What the system said of a file.
    pub fn of_file(name: &str, error: std::io::Error) -> Failure {
        Failure::Usage(format!("{}: {}", name, error))
    }
}

/// "refused with 3 (HSA): must be ..".
pub fn refused(refusal: Refusal) -> String {
    let rule = refusal
        .rule()
        .map_or(String::new(), |rule| format!(": {}", rule));
    format!("refused with {}{}", refusal, rule)
}

impl fmt::Display for Failure {
    fn fmt(&self, f: &mut fmt::Formatter) -> fmt::Result {
        match self {
            Failure::Refused(words) | Failure::Usage(words) => f.write_str(words),
        }
    }
}
