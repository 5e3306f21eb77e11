//! The files of traces/: they are what their stories say.

#[path = "../../amsulfezd/tests/stored/mod.rs"]
mod stored;

use std::path::Path;
use std::process::Command;
use stored::{files, traces};

#[test]
fn the_files_are_what_their_stories_say() {
    let output = Command::new(env!("CARGO_BIN_EXE_make_traces"))
        .arg("check")
        .arg(traces())
        .output()
        .expect("make_traces runs");
    let said = String::from_utf8(output.stdout).expect("text");
    assert!(
        output.status.success(),
        "{}",
        String::from_utf8_lossy(&output.stderr)
    );
    let there = files(&traces(), "trace").len();
    // the site's capture is its trace's
    let captures = files(&traces(), "capture").len() + files(&traces(), "entries").len() - 1;
    let simulations = files(&traces(), "setup").len();
    assert_eq!(
        said,
        format!(
            "{} traces, {} captures and {} simulations are what their stories say\n",
            there, captures, simulations
        ),
        "no trace, capture or simulation lies there without a story"
    );
    let notes = [traces().join("night.notes")];
    assert_eq!(files(&traces(), "notes"), notes, "only the night has notes");
}

#[test]
fn a_changed_file_is_found() {
    let folder = std::env::temp_dir().join(format!("amsulfezd-traces-{}", std::process::id()));
    let run = |word: &str| {
        Command::new(env!("CARGO_BIN_EXE_make_traces"))
            .arg(word)
            .arg(&folder)
            .output()
            .expect("make_traces runs")
    };
    assert!(run("write").status.success());
    assert!(run("check").status.success());
    let file = folder.join("example12.answers");
    let mut text = std::fs::read(&file).expect("the file");
    text[0] ^= 1;
    std::fs::write(&file, text).expect("the file is written");
    let output = run("check");
    assert!(!output.status.success());
    let said = String::from_utf8(output.stderr).expect("text");
    assert!(
        said.contains("example12.answers is not what the stories say"),
        "{}",
        said
    );
    std::fs::remove_dir_all(&folder).expect("the folder goes");
}

/// The program that replays the traces inside the gate is called with each of them, and must print each one's answers.
#[test]
fn the_program_replays_every_trace() {
    let folder = std::env::temp_dir().join(format!("amsulfezd-program-{}", std::process::id()));
    let output = Command::new(env!("CARGO_BIN_EXE_make_traces"))
        .arg("program")
        .arg(&folder)
        .output()
        .expect("make_traces runs");
    assert!(output.status.success());
    let crate_folder = Path::new(env!("CARGO_MANIFEST_DIR")).join("../../../crates/run_traces");
    let read = |path: &Path| std::fs::read_to_string(path).expect("a file");
    for name in ["args", "stdout"] {
        assert_eq!(
            read(&folder.join(name)),
            read(&crate_folder.join(name)),
            "{}",
            name
        );
    }
    let args = read(&folder.join("args"));
    assert_eq!(args.lines().count(), files(&traces(), "trace").len());
    let answers: String = args
        .lines()
        .map(|name| {
            format!(
                "{}\n{}",
                name,
                read(&traces().join(name).with_extension("answers"))
            )
        })
        .collect();
    assert_eq!(answers, read(&folder.join("stdout")));
    std::fs::remove_dir_all(&folder).expect("the folder goes");
}

/// A story told again with its header in edition 2: two bytes fewer, the same entries, the same answers.
#[test]
fn stories_told_again_have_the_same_answers() {
    for name in ["example12", "night", "applications"] {
        let read = |name: &str| std::fs::read(traces().join(name)).expect("the file");
        let first = read(&format!("{}.trace", name));
        let second = read(&format!("edition-2/{}.trace", name));
        assert_eq!(first.len(), second.len() + 2, "{}", name);
        assert_eq!(first[16..], second[14..], "{}", name);
        assert_eq!(
            read(&format!("{}.answers", name)),
            read(&format!("edition-2/{}.answers", name)),
            "{}",
            name
        );
    }
}

/// Document 01's example 12 as it is printed there, with document 02's ending of each line (P5).
#[test]
fn example_12_is_the_documents() {
    let answers = std::fs::read_to_string(traces().join("example12.answers")).expect("the file");
    assert_eq!(
        answers,
        "00000000000001fc\n03100000000001fc\n03100000000001fc\n02421400300001fc\n02321400300001fc\n02300000000001fc\n6 0\n"
    );
}
