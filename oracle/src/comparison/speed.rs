//! Entries per second of several calls on one long ordinary trace, in one process.

use super::run::Call;
use crate::editions::Edition;
use crate::generator::ordinary::{header, ordinary_trace};
use crate::records::{PollRecord, Sent};
use crate::trace::{Entry, Runner, ANSWER};
use std::time::Instant;

/// How often each call is run.
const RUNS: usize = 3;

/// Entries per second of one run, and the answers it left.
fn once(replay: Call, trace: &[u8], entries: usize) -> (f64, u64, Vec<u8>) {
    let mut answers = vec![0; ANSWER * entries];
    let started = Instant::now();
    let number = replay(trace, &mut answers);
    (entries as f64 / started.elapsed().as_secs_f64(), number, answers)
}

/// The oracle's polls alone, with the records read beforehand and the answers not written: how much of
/// its time is the published station's.
fn station_alone(trace: &[u8]) -> f64 {
    let header = header();
    let mut rest = &trace[Edition::of(trace).length()..];
    let mut records = Vec::new();
    while let Some((entry, after)) = Entry::first(rest) {
        if let Entry::Poll(bytes) = entry {
            records.extend(PollRecord::decode(header.applications, bytes));
        }
        rest = after;
    }
    let mut runner = Runner::new(&header);
    runner.entry(Entry::Online);
    let started = Instant::now();
    let sent = records.iter().filter(|record| runner.poll(record).sent != Sent::Nothing).count();
    let seconds = started.elapsed().as_secs_f64();
    assert!(sent > 0, "the ordinary trace sends nothing");
    records.len() as f64 / seconds
}

/// The middle one, and how far the runs lie apart, in percent of it.
pub fn middle_and_spread(runs: &[f64]) -> (f64, f64) {
    let mut sorted = runs.to_vec();
    sorted.sort_by(|a, b| a.partial_cmp(b).expect("a speed is a number"));
    let middle = sorted[sorted.len() / 2];
    let spread = (sorted[sorted.len() - 1] - sorted[0]) / middle * 100.0;
    (middle, spread)
}

/// A call with its name.
pub type Named<'a> = (&'a str, Call<'a>);

/// Runs the calls in turn and says how fast each is, the last beside each of the others. `Err` if their answers differ.
pub fn speed(calls: &[Named], entries: usize) -> Result<String, String> {
    let (trace, _) = ordinary_trace(entries);
    let mut runs = vec![Vec::new(); calls.len()];
    for _ in 0..RUNS {
        let mut before = None;
        for ((_, call), runs) in calls.iter().zip(&mut runs) {
            let (run, number, answers) = once(call, &trace, entries);
            if before.get_or_insert_with(|| (number, answers.clone())) != &(number, answers) {
                return Err("speed: the calls answer the ordinary trace differently".to_string());
            }
            runs.push(run);
        }
    }
    let mut said =
        format!("speed: {} entries of one ordinary trace, {} runs each in turn, one process\n", entries, RUNS);
    let mut middles = Vec::new();
    for ((name, _), runs) in calls.iter().zip(&runs) {
        let (middle, spread) = middle_and_spread(runs);
        let listed: Vec<String> = runs.iter().map(|run| format!("{:.0}", run)).collect();
        said.push_str(&format!(
            "speed: {}: {} entries/s, middle {:.0} ({:.0} ns an entry), spread {:.1} %\n",
            name,
            listed.join(", "),
            middle,
            1e9 / middle,
            spread
        ));
        middles.push(middle);
    }
    if let (Some(((last, _), others)), Some(slowest)) = (calls.split_last(), middles.last()) {
        for ((name, _), middle) in others.iter().zip(&middles) {
            said.push_str(&format!("speed: {} : {} = {:.2}\n", name, last, middle / slowest));
        }
    }
    let alone: Vec<f64> = (0..RUNS).map(|_| station_alone(&trace)).collect();
    let (middle, spread) = middle_and_spread(&alone);
    said.push_str(&format!(
        "speed: the oracle's station alone, records read before, answers not written: middle {:.0} entries/s ({:.0} ns an entry), spread {:.1} %\n",
        middle,
        1e9 / middle,
        spread
    ));
    Ok(said)
}

/// The whole program: `ENTRIES`, at least a million by default. Gives its exit status.
pub fn main(calls: &[Named], words: &[String]) -> i32 {
    let entries = match words {
        [] => Some(2_000_000),
        [word] => word.parse().ok().filter(|entries| *entries > 0),
        _ => None,
    };
    let entries = match entries {
        Some(entries) => entries,
        None => {
            eprintln!("speed: usage: speed [ENTRIES], a whole number above 0");
            return 2;
        }
    };
    match speed(calls, entries) {
        Ok(said) => {
            print!("{}", said);
            0
        }
        Err(said) => {
            eprintln!("{}", said);
            1
        }
    }
}

#[cfg(test)]
mod tests {
    use super::*;
    use crate::trace::replay_trace;

    #[test]
    fn middle_and_spread_of_three() {
        assert_eq!(middle_and_spread(&[4.0, 2.0, 3.0]).0, 3.0);
        assert!((middle_and_spread(&[4.0, 2.0, 3.0]).1 - 66.7).abs() < 0.1);
    }

    #[test]
    fn calls_that_differ_are_not_timed() {
        let wrong = |trace: &[u8], answers: &mut [u8]| replay_trace(trace, answers) + 1;
        assert!(speed(&[("a", &replay_trace), ("b", &replay_trace)], 100).is_ok());
        for place in 0..3 {
            let mut calls: [Named; 3] = [("a", &replay_trace), ("b", &replay_trace), ("c", &replay_trace)];
            calls[place].1 = &wrong;
            assert!(speed(&calls, 100).is_err(), "{}", place);
        }
    }
}
