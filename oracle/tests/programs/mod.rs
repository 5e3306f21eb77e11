//! What the tests of the programs share. Each takes the parts that it needs.
#![allow(dead_code)]

use std::io::Write;
use std::process::{Command, Stdio};

/// Runs a program; gives its status and what it prints.
pub fn program(path: &str, words: &[&str], input: &[u8]) -> (i32, String, String) {
    let mut command = Command::new(path);
    command.args(words).stdin(Stdio::piped()).stdout(Stdio::piped()).stderr(Stdio::piped());
    let mut child = command.spawn().expect("it starts");
    // it may end before it has read all
    let _ = child.stdin.take().expect("its input").write_all(input);
    let output = child.wait_with_output().expect("it ends");
    let text = |bytes| String::from_utf8(bytes).expect("text");
    (output.status.code().expect("a status"), text(output.stdout), text(output.stderr))
}

/// A program that compares calls says the same where another process makes them, so many at random, and finds one that says
/// nothing.
pub fn calls_in_another_process_are_the_same(path: &str, count: &str) {
    let here = program(path, &["5", count], &[]);
    assert_eq!(here.0, 0, "{}", here.1);
    assert_eq!(program(path, &["5", count, "--", path, "--serve"], &[]), here);
    let (status, said, _) = program(path, &["5", count, "--", "true"], &[]);
    assert_eq!(status, 1);
    assert!(said.contains("did not come back"), "{}", said);
}

/// Usages that every program which compares refuses.
pub const BAD_USAGE: [&str; 8] = ["", "1", "1 0", "x 1", "1 2 3", "1 2 --", "1 2 -- no-such-program", "--other"];

/// Bad usage is one line and status 2.
pub fn bad_usage(path: &str, usages: &[&str]) {
    for words in usages {
        let list: Vec<&str> = words.split_whitespace().collect();
        let (status, said, error) = program(path, &list, &[]);
        assert_eq!((status, said.as_str(), error.lines().count()), (2, "", 1), "{}: {}", words, error);
    }
}
