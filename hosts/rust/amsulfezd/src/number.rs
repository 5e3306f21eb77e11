//! Document 01's numbers for states, outcomes, station types and refusals, and document 02's for the next station.

use std::fmt;

/// A number that the documents give to nothing of its kind.
#[derive(Debug, Clone, Copy, PartialEq, Eq, Hash)]
pub struct UnknownNumber {
    number: u8,
    kind: &'static str,
}

impl UnknownNumber {
    /// The number.
    pub fn number(self) -> u8 {
        self.number
    }
}

impl fmt::Display for UnknownNumber {
    fn fmt(&self, f: &mut fmt::Formatter) -> fmt::Result {
        write!(f, "{} is not the number of {}", self.number, self.kind)
    }
}

impl std::error::Error for UnknownNumber {}

/// The one of these that has this number.
pub(crate) fn with_number<T: Copy>(
    all: &[T],
    number_of: fn(T) -> u8,
    number: u8,
    kind: &'static str,
) -> Result<T, UnknownNumber> {
    let found = all.iter().find(|&&one| number_of(one) == number);
    found.copied().ok_or(unknown(number, kind))
}

/// Nothing of this kind has this number.
pub(crate) fn unknown(number: u8, kind: &'static str) -> UnknownNumber {
    UnknownNumber { number, kind }
}
