//! The calls beside a station along a trace: the cases that have to be met, up to the entry whose answer has no room.

use super::points::Points;
use crate::counts::count;
use crate::heard::{summarize, Summary};
use crate::records::PollRecord;
use crate::ring::LAST;
use crate::trace::{start, whole_entries, Entry, Runner, Trace, ANSWER};

const GROUP: &str = "stepped with a table";

/// How it ends, and what is met beside a table of nobody and of somebody.
const CASES: [&str; 17] = [
    "a header that is refused",
    "to the end",
    "to the end, no entry",
    "17 in an entry",
    "18 before the end",
    "18 where more would be heard",
    "a command, somebody was heard",
    "offline, somebody was heard",
    "a refused entry, somebody was heard",
    "a poll that consumes nothing, somebody was heard",
    "a poll that consumes some and leaves some",
    "a poll that consumes all",
    "claims at the end",
    "removals at the end",
    "meetings at the end",
    "nobody heard at the end",
    "several heard at the end",
];

pub fn name_points(points: &mut Points) {
    points.group(GROUP, CASES);
}

/// Counts what is met along this trace; gives how many calls are made.
pub fn see(points: &mut Points, trace: &Trace) -> u64 {
    let bytes = trace.bytes();
    let (header, rest) = match start(&bytes) {
        Ok(begun) => begun,
        Err(_) => {
            points.hit(GROUP, "a header that is refused");
            return 1;
        }
    };
    let mut hit = |case: &str| points.hit(GROUP, case);
    let (entries, ending) = whole_entries(rest);
    let answered = entries.len().min(trace.room / ANSWER);
    let (mut runner, mut summary) = (Runner::new(&header), Summary::default());
    for entry in &entries[..answered] {
        let somebody = heard_by(&summary) > 0;
        let answer = runner.entry(*entry);
        match entry {
            Entry::Poll(bytes) => match PollRecord::decode(runner.applications, bytes) {
                Ok(record) => {
                    let (consumed, listed) = (usize::from(answer.consumed), record.telegrams.len());
                    match consumed {
                        0 if somebody => hit("a poll that consumes nothing, somebody was heard"),
                        0 => {}
                        _ if consumed < listed => hit("a poll that consumes some and leaves some"),
                        _ => hit("a poll that consumes all"),
                    }
                    summary.poll(&record, &answer);
                }
                Err(_) if somebody => hit("a refused entry, somebody was heard"),
                Err(_) => {}
            },
            Entry::Offline if somebody => hit("offline, somebody was heard"),
            _ if somebody => hit("a command, somebody was heard"),
            _ => {}
        }
    }
    match (answered < entries.len(), ending) {
        (true, _) => hit("18 before the end"),
        (_, 17) => hit("17 in an entry"),
        _ if entries.is_empty() => hit("to the end, no entry"),
        _ => hit("to the end"),
    }
    if answered < entries.len() {
        if summarize(&bytes).map_or(false, |whole| whole.summary != summary) {
            hit("18 where more would be heard");
        }
    } else if let Ok(whole) = count(&bytes) {
        let counts = whole.counts;
        let named = [(counts.claims, CASES[12]), (counts.removals, CASES[13]), (counts.meetings, CASES[14])];
        named.iter().filter(|(times, _)| *times > 0).for_each(|(_, case)| hit(case));
        match heard_by(&summary) {
            0 => hit("nobody heard at the end"),
            1 => {}
            _ => hit("several heard at the end"),
        }
    }
    // opened, stepped, asked for the counts and for every address, and eight calls that are refused
    1 + answered as u64 + 1 + u64::from(LAST) + 1 + 8
}

/// How many addresses were heard.
fn heard_by(summary: &Summary) -> usize {
    (0..=LAST).filter(|address| summary.entry(*address).is_some()).count()
}
