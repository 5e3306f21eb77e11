//! Counting by name. Every point is named beforehand, so that a case that was never met is known by name, and one that is
//! met without being named is known too.

use std::collections::{BTreeSet, HashMap};
use std::fmt::{Display, Write};

#[derive(Default)]
pub struct Points {
    /// The groups and their points in order.
    groups: Vec<(&'static str, Vec<String>)>,
    counts: HashMap<&'static str, HashMap<String, u64>>,
    unnamed: BTreeSet<String>,
    /// The point that is looked up.
    wanted: String,
}

/// Groups up to this size are printed point by point.
const LISTED: usize = 20;

impl Points {
    /// Names a group of points.
    pub fn group<S: ToString>(&mut self, name: &'static str, points: impl IntoIterator<Item = S>) {
        let points: Vec<String> = points.into_iter().map(|point| point.to_string()).collect();
        let counts: HashMap<String, u64> = points.iter().map(|point| (point.clone(), 0)).collect();
        assert_eq!(counts.len(), points.len(), "a point of {} is named twice", name);
        assert!(self.counts.insert(name, counts).is_none(), "group {} is named twice", name);
        self.groups.push((name, points));
    }

    /// Counts a point, if it was named.
    pub fn hit_if_named(&mut self, group: &'static str, point: impl Display) -> bool {
        self.count(group, point, 1)
    }

    fn count(&mut self, group: &'static str, point: impl Display, times: u64) -> bool {
        self.wanted.clear();
        write!(self.wanted, "{}", point).expect("text");
        let points = self.counts.get_mut(group).unwrap_or_else(|| panic!("no coverage group '{}'", group));
        points.get_mut(self.wanted.as_str()).map(|count| *count += times).is_some()
    }

    /// Counts a point that has to be named.
    pub fn hit(&mut self, group: &'static str, point: impl Display) {
        self.hit_times(group, point, 1);
    }

    /// Counts a point that has to be named, so many times.
    pub fn hit_times(&mut self, group: &'static str, point: impl Display, times: u64) {
        if !self.count(group, point, times) {
            self.unnamed.insert(format!("{}: {}", group, self.wanted));
        }
    }

    pub fn size(&self) -> usize {
        self.groups.iter().map(|(_, points)| points.len()).sum()
    }

    /// The points never met.
    pub fn missed(&self) -> Vec<String> {
        let all = self.groups.iter().flat_map(|(group, points)| points.iter().map(move |point| (group, point)));
        all.filter(|(group, point)| self.counts[*group][*point] == 0).map(|(g, p)| format!("{}: {}", g, p)).collect()
    }

    /// What was met although it is not named.
    pub fn unnamed(&self) -> &BTreeSet<String> {
        &self.unnamed
    }

    /// A line for each group.
    pub fn report(&self) -> String {
        let mut text = String::new();
        for (group, points) in &self.groups {
            let counts: Vec<u64> = points.iter().map(|point| self.counts[group][point]).collect();
            let said = if points.len() <= LISTED {
                let listed: Vec<String> = points.iter().zip(&counts).map(|(p, c)| format!("{} {}", p, c)).collect();
                listed.join(", ")
            } else {
                let met = counts.iter().filter(|count| **count > 0).count();
                let least = counts.iter().min().unwrap_or(&0);
                format!("{} of {} points, each at least {} times", met, counts.len(), least)
            };
            writeln!(text, "  {}: {}", group, said).expect("text");
        }
        text
    }
}

#[cfg(test)]
mod tests {
    use super::*;

    #[test]
    fn what_was_not_met_and_what_was_not_named_is_known() {
        let mut points = Points::default();
        points.group("op", ["fresh", "claim"]);
        points.group("bit", [1, 2]);
        points.hit("op", "claim");
        points.hit("bit", 1);
        assert!(!points.hit_if_named("bit", 7));
        assert!(points.unnamed().is_empty());
        points.hit("op", "remove");
        assert_eq!(points.missed(), ["op: fresh", "bit: 2"]);
        assert_eq!(points.unnamed().iter().collect::<Vec<_>>(), ["op: remove"]);
        assert_eq!(points.report(), "  op: fresh 0, claim 1\n  bit: 1 1, 2 0\n");
    }
}
