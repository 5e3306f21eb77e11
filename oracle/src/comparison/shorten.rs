//! Makes a trace that differs as short as it can be.

use crate::records::{Decision, PollRecord};
use crate::trace::{Header, Trace, ANSWER};
use std::time::{Duration, Instant};

/// How long a difference is made shorter.
const SHORTENING: Duration = Duration::from_secs(20);

/// A trace that still differs, with as few entries, telegrams and decisions as were found.
pub fn shorten(still: &dyn Fn(&Trace) -> bool, found: &Trace) -> Trace {
    let started = Instant::now();
    let differs = |trace: &Trace| started.elapsed() < SHORTENING && still(trace);
    // a buffer with room for all, if the room is not what matters
    let roomy = |trace: &Trace| Trace { room: ANSWER * trace.entries.len(), ..trace.clone() };
    let keep_room = !differs(&roomy(found));
    let fit = |trace: Trace| if keep_room { trace } else { roomy(&trace) };
    let mut best = fit(found.clone());
    loop {
        let before = best.clone();
        let with = |entries: &[Vec<u8>]| fit(Trace { entries: entries.to_vec(), ..before.clone() });
        best = with(&shrink(&best.entries, &mut |fewer| differs(&with(fewer))));
        for i in 0..best.entries.len() {
            for simpler in simpler_entries(&best, i) {
                let mut tried = best.clone();
                tried.entries[i] = simpler;
                if differs(&tried) {
                    best = tried;
                }
            }
        }
        if best == before {
            return best;
        }
    }
}

/// Drops parts of the list, large ones first, as long as `differs` holds of what is left.
fn shrink<T: Clone>(items: &[T], differs: &mut dyn FnMut(&[T]) -> bool) -> Vec<T> {
    let mut items = items.to_vec();
    let mut size = (items.len() / 2).max(1);
    loop {
        let (mut dropped, mut at) = (false, 0);
        while at < items.len() {
            let end = (at + size).min(items.len());
            let fewer = [&items[..at], &items[end..]].concat();
            if differs(&fewer) {
                items = fewer;
                dropped = true;
            } else {
                at = end;
            }
        }
        if size == 1 && !dropped {
            return items;
        }
        size = (size / 2).max(1);
    }
}

/// Entries like this one with less in them.
fn simpler_entries(trace: &Trace, i: usize) -> Vec<Vec<u8>> {
    let applications = Header::accepted(&trace.header).map_or(0, |header| header.applications);
    let bytes = trace.entries[i].get(1..).unwrap_or(&[]);
    let record = match PollRecord::decode(applications, bytes) {
        Ok(record) => record,
        Err(_) => return Vec::new(),
    };
    let mut simpler =
        vec![PollRecord { pending: 0, ..record.clone() }, PollRecord { transmitting: false, ..record.clone() }];
    for t in 0..record.telegrams.len() {
        let mut fewer = record.clone();
        fewer.telegrams.remove(t);
        simpler.push(fewer);
    }
    for (d, (normal, high)) in record.decisions.iter().enumerate() {
        for decisions in [(Decision::Declines, *high), (*normal, Decision::Declines)] {
            let mut fewer = record.clone();
            fewer.decisions[d] = decisions;
            simpler.push(fewer);
        }
    }
    simpler.iter().filter(|other| **other != record).map(PollRecord::entry).collect()
}

#[cfg(test)]
mod tests {
    use super::*;

    #[test]
    fn shrinking_keeps_only_what_matters() {
        let items: Vec<u32> = (0..200).collect();
        let mut runs = 0;
        let left = shrink(&items, &mut |list| {
            runs += 1;
            [17, 150, 151].iter().all(|item| list.contains(item))
        });
        assert_eq!(left, [17, 150, 151]);
        assert!(runs < 200, "{} runs", runs);
    }
}
