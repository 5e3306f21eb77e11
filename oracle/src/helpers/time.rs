//! Document 01, "Time": the time types that the published files use. "Clock: 0 to 2^48 - 1. It may go
//! back. The end of hold may be below zero."

use std::ops::{Add, Sub, SubAssign};

/// A point in time, in microseconds.
#[derive(Debug, Clone, Copy, PartialEq, Eq, PartialOrd, Ord)]
pub struct Instant {
    micros: i64,
}

impl Instant {
    pub const ZERO: Instant = Instant { micros: 0 };

    pub fn from_micros(micros: i64) -> Instant {
        Instant { micros }
    }

    pub fn total_micros(self) -> i64 {
        self.micros
    }
}

impl Add<Duration> for Instant {
    type Output = Instant;

    fn add(self, time: Duration) -> Instant {
        Instant { micros: self.micros + time.micros as i64 }
    }
}

impl SubAssign<Duration> for Instant {
    fn sub_assign(&mut self, time: Duration) {
        self.micros -= time.micros as i64;
    }
}

/// How long it is from the other instant to this one: nothing, if this one is the earlier.
impl Sub<Instant> for Instant {
    type Output = Duration;

    fn sub(self, earlier: Instant) -> Duration {
        Duration { micros: u64::try_from(self.micros - earlier.micros).unwrap_or(0) }
    }
}

/// A length of time, in microseconds.
#[derive(Debug, Clone, Copy, PartialEq, Eq, PartialOrd, Ord)]
pub struct Duration {
    micros: u64,
}

impl Duration {
    pub const ZERO: Duration = Duration { micros: 0 };

    pub fn from_micros(micros: u64) -> Duration {
        Duration { micros }
    }

    pub fn from_millis(millis: u64) -> Duration {
        Duration { micros: millis * 1000 }
    }

    pub fn from_secs(secs: u64) -> Duration {
        Duration { micros: secs * 1_000_000 }
    }

    pub fn total_micros(self) -> u64 {
        self.micros
    }

    pub fn total_millis(self) -> u64 {
        self.micros / 1000
    }
}
