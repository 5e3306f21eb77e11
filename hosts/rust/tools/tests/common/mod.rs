//! What the tests of texts that are made of a trace and its answers share.

use amsulfezd::run::from_text;
use amsulfezd_tools::explain::NotThisTrace;
use amsulfezd_tools::from_replay::Replay;
use std::path::{Path, PathBuf};

/// The folder of this package.
pub fn package() -> PathBuf {
    PathBuf::from(env!("CARGO_MANIFEST_DIR"))
}

/// A file of traces/.
pub fn trace(name: &str) -> PathBuf {
    package().join("../../../traces").join(name)
}

/// What makes a text of a replay.
pub type Make = fn(&Replay) -> Result<String, NotThisTrace>;

/// The text of a trace's file with this text as its answers, or why there is none.
pub fn made(make: Make, file: &Path, answers: &[u8]) -> Result<String, String> {
    made_with(make, file, (None, None), answers)
}

/// The same of the entries from one number to another.
pub fn made_with(
    make: Make,
    file: &Path,
    (from, to): (Option<&str>, Option<&str>),
    answers: &[u8],
) -> Result<String, String> {
    let trace = std::fs::read(file).map_err(|error| format!("{}: {}", file.display(), error))?;
    let text = String::from_utf8_lossy(answers);
    let (answers, run) = from_text(&text).map_err(|error| error.to_string())?;
    let replay = Replay::of(Some(file), trace, answers, run, from, to)?;
    make(&replay).map_err(|error| error.to_string())
}

/// What is made of a trace of traces/ with its expected answers, and its counts, where they are stated.
pub fn printed(make: Make, name: &str, (from, to): (Option<&str>, Option<&str>)) -> String {
    let text = |ending: &str| std::fs::read_to_string(trace(&format!("{}.{}", name, ending)));
    let file = trace(&format!("{}.trace", name));
    let (answers, run) = from_text(&text("answers").expect("the answers")).expect("a run");
    let bytes = std::fs::read(&file).expect("the trace");
    let mut replay = Replay::of(Some(&file), bytes, answers, run, from, to).expect(name);
    if let Ok(counts) = text("counts") {
        replay.view.counts = amsulfezd::counts::from_text(&counts).expect("counts").0;
    }
    make(&replay).expect(name)
}

/// There is no text, and these words say why, on one line.
pub fn fails_with(made: &Result<String, String>, words: &str) {
    let said = made.as_ref().expect_err(words);
    assert_eq!(said.lines().count(), 1, "{}", said);
    assert!(said.contains(words), "{}", said);
}

/// Input that is no trace, or no answers of the trace, is answered by one line.
pub fn refuses_bad_input(make: Make) {
    let of = |file: &str, answers: &[u8]| made(make, &trace(file), answers);
    fails_with(&of("nosuch.trace", b""), "nosuch.trace");
    fails_with(&of("example12.trace", b""), "no line");
    fails_with(
        &of("example12.trace", b"hello\n1 0\n"),
        "16 hexadecimal digits",
    );
    let of_night = std::fs::read(trace("night.answers")).expect("the answers");
    fails_with(
        &of("example12.trace", &of_night),
        "not this trace's: entries answered: 36",
    );
    let asked = |range| made_with(make, &trace("night.trace"), range, &of_night);
    for (from, to, words) in [
        (Some("abc"), None, "--from abc is not an entry's number"),
        (Some("1.5"), None, "--from 1.5 is not an entry's number"),
        (Some("+2"), None, "--from +2 is not an entry's number"),
        (None, Some("-1"), "--to -1 is not an entry's number"),
        (
            Some("0"),
            None,
            "--from 0 is not an entry's number; they count from 1",
        ),
        (Some("10"), Some("9"), "--from 10 is after --to 9"),
        (
            Some("37"),
            None,
            "--from 37 is beyond the trace; entries answered: 36",
        ),
        (
            Some("2"),
            Some("37"),
            "--to 37 is beyond the trace; entries answered: 36",
        ),
        (
            None,
            Some("99999999999999999999"),
            "--to 99999999999999999999 is not an entry's number",
        ),
    ] {
        fails_with(&asked((from, to)), words);
    }
    let refused = trace("headers/03-hsa.trace");
    fails_with(
        &made_with(make, &refused, (Some("1"), None), b"0 3\n"),
        "--from 1 is beyond the trace; entries answered: 0",
    );
    refuses_bad_notes(make);
}

/// Notes that are none are answered by one line that names the file and the line in it.
fn refuses_bad_notes(make: Make) {
    let folder = std::env::temp_dir().join(format!("amsulfezd-notes-{}", std::process::id()));
    std::fs::create_dir_all(&folder).expect("a folder");
    let file = folder.join("night.trace");
    std::fs::copy(trace("night.trace"), &file).expect("the trace is copied");
    let answers = std::fs::read(trace("night.answers")).expect("the answers");
    for (notes, words) in [
        (
            &b"1000 good\nbad 1000\n"[..],
            "night.notes, line 2: \"bad\" is not a clock",
        ),
        (b"-1 early", "night.notes, line 1: \"-1\" is not a clock"),
        (
            b"281474976710656 late\n",
            "line 1: \"281474976710656\" is not a clock from 0 to 281,474,976,710,655",
        ),
        (b"1000\n", "line 1: there are no words"),
        (b"1000  \n", "line 1: there are no words"),
        (b"1000 a\n\n2000 b\n", "line 2: \"\" is not a clock"),
        (b"1000 a\tb\n", "line 1: the words have a control character"),
        (b"1000 \xff\n", "night.notes: "),
    ] {
        std::fs::write(folder.join("night.notes"), notes).expect("the notes are written");
        fails_with(&made(make, &file, &answers), words);
    }
    std::fs::remove_dir_all(&folder).expect("the folder goes");
}
