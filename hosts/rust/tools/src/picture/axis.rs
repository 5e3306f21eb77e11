//! Time: the clocks of the polls, the gaps between them, and which labels have room.

use super::layout::SMALL;
use super::svg::{text_width, Px};
use crate::explain::{thousands, Line};

/// A clock as explain writes it, and in hours, minutes and seconds.
pub fn clock_words(clock: u64) -> String {
    format!(
        "{} us ({}.{:06})",
        thousands(clock),
        second_words(clock / 1_000_000),
        clock % 1_000_000
    )
}

/// Seconds as hours, minutes and seconds.
pub fn second_words(seconds: u64) -> String {
    format!(
        "{}:{:02}:{:02}",
        seconds / 3600,
        seconds / 60 % 60,
        seconds % 60
    )
}

/// For each entry the whole seconds of the clock of the last accepted poll up to it; none before the first.
pub fn seconds(lines: &[Line]) -> Vec<Option<u64>> {
    let mut last = None;
    lines
        .iter()
        .map(|line| {
            last = line.accepted_clock().or(last);
            last.map(|clock| clock / 1_000_000)
        })
        .collect()
}

/// The time between two polls.
#[derive(Debug, Clone, Copy)]
pub struct Gap {
    /// Microseconds; below zero if the clock went back.
    pub micros: i64,
    /// At least ten times the median.
    long: bool,
}

impl Gap {
    /// The style of its bar and of its label. A long time is ordinary; only a clock that goes back is an alarm.
    pub fn class(&self) -> &'static str {
        if self.micros < 0 {
            "back alarm"
        } else if self.long {
            "long"
        } else {
            "bar"
        }
    }

    /// Its label: microseconds if they are few.
    pub fn words(&self) -> String {
        let micros = self.micros.unsigned_abs();
        let size = match micros {
            0..=99_999 => thousands(micros),
            100_000..=9_999_999 => format!("{} ms", thousands(micros / 1000)),
            10_000_000..=9_999_999_999 => format!("{} s", thousands(micros / 1_000_000)),
            _ => format!("{} h", thousands(micros / 3_600_000_000)),
        };
        format!("{}{}", if self.micros < 0 { "-" } else { "+" }, size)
    }

    /// The height of its bar: four pixels for each digit up to the eighth.
    pub fn height(&self) -> Px {
        match self.micros.unsigned_abs() {
            0 => 0,
            micros => 4 * micros.to_string().len().min(8) as Px,
        }
    }
}

/// For each entry the time since the last accepted poll before it. A refused record changes nothing and is passed over.
pub fn gaps(lines: &[Line]) -> Vec<Option<Gap>> {
    let mut before = None;
    let mut all = Vec::new();
    for line in lines {
        let clock = line.accepted_clock();
        let gap = match (before, clock) {
            (Some(before), Some(clock)) => Some(clock as i64 - before as i64),
            _ => None,
        };
        all.push(gap);
        before = clock.or(before);
    }
    let mut forward: Vec<i64> = all.iter().flatten().copied().filter(|&g| g > 0).collect();
    forward.sort_unstable();
    let median = forward.get(forward.len().saturating_sub(1) / 2).copied();
    all.into_iter()
        .map(|gap| {
            gap.map(|micros| Gap {
                micros,
                long: median.map_or(false, |median| micros >= 10 * median),
            })
        })
        .collect()
}

/// A label that has its place: from where to where.
pub type Taken = (Px, Px);

/// Takes the place of a text around `x` if no text is there yet.
pub fn take(taken: &mut Vec<Taken>, x: Px, words: &str) -> bool {
    let half = text_width(words.chars().count(), SMALL) / 2 + 2;
    let (from, to) = (x - half, x + half);
    let free = taken.iter().all(|&(start, end)| to <= start || end <= from);
    if free {
        taken.push((from, to));
    }
    free
}

/// The step between labelled entries, so that numbers up to this one have room in columns of this width.
pub fn entry_step(largest: usize, base: Px) -> usize {
    let needed = text_width(largest.to_string().len(), SMALL) + 6;
    let steps = [1, 2, 5, 10, 20, 50, 100];
    let fitting = steps.iter().find(|&&step| step as Px * base >= needed);
    *fitting.unwrap_or(&200)
}
