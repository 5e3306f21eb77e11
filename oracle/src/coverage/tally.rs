//! What calls that know no station meet, counted by the million: a point is made of words that are there already, and becomes
//! text only at the end.

use super::points::Points;
use std::collections::HashMap;
use std::fmt;

/// A point: words, or words and a number.
#[derive(Debug, Clone, Copy, PartialEq, Eq, Hash)]
pub enum Point {
    Said(&'static str),
    Numbered(&'static str, usize),
}

impl fmt::Display for Point {
    fn fmt(&self, f: &mut fmt::Formatter) -> fmt::Result {
        match self {
            Point::Said(words) => f.write_str(words),
            Point::Numbered(words, number) => write!(f, "{} {}", words, number),
        }
    }
}

/// How often each point of each group was met.
#[derive(Default)]
pub struct Tally(HashMap<(&'static str, Point), u64>);

impl Tally {
    /// Counts a point.
    pub fn hit(&mut self, group: &'static str, point: Point) {
        *self.0.entry((group, point)).or_insert(0) += 1;
    }

    /// Counts all of it among points that have been named.
    pub fn count_in(&self, points: &mut Points) {
        for ((group, point), count) in &self.0 {
            points.hit_times(group, point, *count);
        }
    }
}
