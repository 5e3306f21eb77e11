//! The explanations: stored outputs, which were checked by reading, and answers that are not the trace's.

mod common;

use amsulfezd::record::{Poll, Telegram};
use amsulfezd::run::from_text;
use amsulfezd::trace::{Header, TraceBuilder};
use amsulfezd_tools::explain::{explain as explained, NotThisTrace};
use amsulfezd_tools::from_replay::Replay;
use amsulfezd_tools::view::{Note, View};
use common::{fails_with, made, package, printed, refuses_bad_input, trace};
use std::path::Path;

/// The words of a replay.
fn words(replay: &Replay) -> Result<String, NotThisTrace> {
    explained(&replay.trace, &replay.answers, &replay.run, &replay.view)
}

/// The words of a trace with this text as its answers.
fn explain(trace: &Path, answers: &[u8]) -> Result<String, String> {
    made(words, trace, answers)
}

/// Each stored output is what explain prints of the trace of that name and its expected answers.
#[test]
fn stored_outputs() {
    let mut count = 0;
    for name in [
        "example12",
        "alone",
        "night",
        "joining",
        "gap-poll",
        "collision-active-idle",
        "applications",
        "unexpected",
        "fine-points",
        "passive/spare-logger",
        "passive/listen-token",
        "passive/claim-token",
        "passive/passive-idle",
        "passive/own-address",
        "passive/no-poll-between",
        "refused-entries",
        "cut-entry",
        "headers/03-hsa",
        "headers/17-cut",
        "headers/25-site",
        "headers/accepted-limits",
        "edition-2/example12",
        "edition-2/13-bytes",
        "edition-2/14-zero",
        "edition-2/83h-16-bytes",
    ] {
        let stored = package()
            .join("tests/explained")
            .join(format!("{}.txt", name.replace('/', "-")));
        let expected = std::fs::read_to_string(&stored).expect("the stored output");
        assert_eq!(printed(words, name, (None, None)), expected, "{}", name);
        count += 1;
    }
    let stored = std::fs::read_dir(package().join("tests/explained")).expect("the folder");
    assert_eq!(stored.count(), count, "every stored output is compared");
}

#[test]
fn answers_of_another_trace_are_found() {
    fails_with(
        &explain(&trace("cut-entry.trace"), b"0 0\n"),
        "one cut short: yes",
    );
    fails_with(
        &explain(&trace("headers/17-cut.trace"), b"0 0\n"),
        "not this trace's",
    );
    fails_with(
        &explain(
            &trace("refused-entries.trace"),
            b"00000000000001fc\n03100000000001fc\n2 18\n",
        ),
        "entry 2 has another form",
    );
}

/// In ListenToken a token to us is not taken, whoever sends it.
#[test]
fn a_listening_station_takes_no_token() {
    let mut trace = TraceBuilder::new(Header::new(5, 6, 1));
    trace.online();
    trace
        .poll(&Poll::at(1000).telegram(Telegram::token(9, 5)))
        .expect("a poll that fits");
    let (answers, run) = from_text("00000000000001fc\n0310000001000024\n2 0\n").expect("a run");
    let text = explained(&trace.into_bytes(), &answers, &run, &View::default());
    let text = text.expect("an explanation");
    assert!(
        text.contains(
            "takes note; does not take the token from 9, as it only listens; next station is now 9"
        ),
        "{}",
        text
    );
}

/// An answer of an earlier version, which refused passive, is put into words, and is nothing that the station then is.
#[test]
fn passive_as_earlier_versions_answered_it() {
    let mut trace = TraceBuilder::new(Header::new(5, 6, 1));
    trace.online();
    trace.passive();
    trace.online();
    let answers = "00000000000001fc\n80000000000001fc\n00000000000001fc\n3 0\n";
    let (answers, run) = from_text(answers).expect("a run");
    let text = explained(&trace.into_bytes(), &answers, &run, &View::default());
    let text = text.expect("an explanation");
    assert!(
        text.contains(
            "refused with 16 (passive): that version had no passive state; nothing changes"
        ),
        "{}",
        text
    );
}

/// A change of the next station is said; a station that is alone is said to be alone, and 127 stands in no line.
#[test]
fn a_lone_station_is_alone() {
    let text = printed(words, "alone", (None, None));
    let said: Vec<&str> = text
        .lines()
        .filter_map(|line| line.rsplit_once("; "))
        .map(|(_, last)| last)
        .filter(|last| last.contains("alone") || last.contains("next station"))
        .collect();
    assert_eq!(said, ["next station is now 0", "is alone now"]);
    for name in ["alone", "night", "joining", "example12"] {
        assert!(
            !printed(words, name, (None, None)).contains("127"),
            "{}",
            name
        );
    }
    // an answer that says so in CheckTokenPass, which no station gives, is still put into words
    let mut trace = TraceBuilder::new(Header::new(5, 6, 1));
    trace.poll(&Poll::at(1000)).expect("a poll that fits");
    trace.poll(&Poll::at(2000)).expect("a poll that fits");
    let (answers, run) = from_text("03700000000001fc\n0372240030000024\n2 0\n").expect("a run");
    let text = explained(&trace.into_bytes(), &answers, &run, &View::default());
    let text = text.expect("an explanation");
    assert!(!text.contains("127"), "{}", text);
}

/// A range has the lines of its entries as the whole has them, under a line that says which they are.
#[test]
fn a_range_has_its_lines() {
    let squeezed = |text: &str| text.split_whitespace().collect::<Vec<_>>().join(" ");
    let whole = printed(words, "night", (None, None));
    let whole: Vec<String> = whole.lines().map(squeezed).collect();
    let entries: Vec<&String> = whole.iter().filter(|line| !line.starts_with('*')).collect();
    let note = "* 7,800,000,000 us the panel's plug is pulled";
    for (range, first, last, noted) in [
        ((Some("24"), Some("27")), 24, 27, true),
        ((Some("25"), None), 25, 36, false),
        ((None, Some("23")), 1, 23, false),
        ((Some("7"), Some("7")), 7, 7, false),
    ] {
        let text = printed(words, "night", range);
        let mut lines: Vec<String> = text.lines().map(squeezed).collect();
        assert_eq!(lines[1], format!("Entries {} to {} of 36", first, last));
        assert_eq!(lines.iter().any(|line| line == note), noted, "{}", text);
        lines.retain(|line| line != note);
        // The settings and an empty line come before, in the part one more line.
        let wanted = entries[first + 1..last + 2].iter();
        assert!(lines[3..]
            .iter()
            .zip(wanted)
            .all(|(line, wanted)| line == *wanted));
        assert_eq!(lines.len(), 3 + (last + 1 - first) + 3);
        let ending = |lines: &[String]| lines[lines.len() - 2..].to_vec();
        assert_eq!(ending(&lines), ending(&whole), "the same ending and counts");
    }
}

/// A note stands before the first accepted poll that is not earlier, or after the last entry.
#[test]
fn notes_stand_at_their_time() {
    let mut trace = TraceBuilder::new(Header::new(5, 6, 1));
    trace.record(&[0xff; 8]).expect("a record that fits");
    trace.poll(&Poll::at(1000)).expect("a poll that fits");
    trace.offline();
    trace.poll(&Poll::at(2000)).expect("a poll that fits");
    let text = "68000000000001fc\n01000000000001fc\n00000000000001fc\n01000000000001fc\n4 0\n";
    let (answers, run) = from_text(text).expect("a run");
    let note = |clock: u64, words: &str| Note {
        clock,
        words: words.to_string(),
    };
    let view = View {
        notes: vec![
            note(2001, "after all"),
            note(1001, "between"),
            note(2000, "with the second"),
            note(0, "first of all"),
        ],
        ..View::default()
    };
    let text = explained(&trace.into_bytes(), &answers, &run, &view).expect("an explanation");
    let firsts: Vec<&str> = text
        .lines()
        .skip(2)
        .map(|line| line.split_whitespace().next().unwrap_or(""))
        .collect();
    assert_eq!(firsts, ["1", "*", "2", "3", "*", "*", "4", "*", "", "The"]);
    let noted: Vec<&str> = text
        .lines()
        .filter_map(|line| {
            line.split_once(" us  ")
                .filter(|_| line.starts_with("   *"))
        })
        .map(|(_, words)| words)
        .collect();
    assert_eq!(
        noted,
        ["first of all", "between", "with the second", "after all"]
    );
}

#[test]
fn no_room_is_explained() {
    let printed = explain(&trace("example12.trace"), b"00000000000001fc\n1 18\n");
    let printed = printed.expect("an explanation");
    assert!(printed.ends_with(
        "There was no room for the answer to entry 2; answers before it, which stand: 1. Ending number 18.\n"
    ));
}

#[test]
fn bad_input_is_one_line() {
    refuses_bad_input(words);
}
