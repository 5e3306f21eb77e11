//! The service desk: one program over the proved library.
//!
//! | Module | What it holds |
//! |---|---|
//! | `commands` | a module for each command: its words for `--help`, and what it does; the list of all of them |
//! | `input` | files and standard input, and which kind of file one is, by its content |
//! | `output` | files that get their name when they are whole, and standard output |
//! | `failure` | why a command ended, and the status that says so |
//! | `progress` | the bar on standard error |
//! | `settings` | the settings that a header takes, as options |
//! | `pcap` | captures as other programs open them |
//! | `page` | a trace as a page for a browser |
//! | `manual` | the manual page, made from the words of `--help` |
//!
//! Nothing here works out what a station does: every answer comes from the proved library.

mod commands;
mod failure;
mod input;
mod manual;
mod output;
mod page;
mod pcap;
mod progress;
mod settings;

use std::io::Write;
use std::process::ExitCode;

fn main() -> ExitCode {
    let words = match commands::tool().try_get_matches() {
        Ok(words) => words,
        Err(error) => {
            // Help that was asked for is no failure. A reader that is gone has enough.
            let _ = error.print();
            return ExitCode::from(if error.use_stderr() { 2 } else { 0 });
        }
    };
    let (name, words) = words.subcommand().expect("a command is required");
    match commands::run(name, words) {
        Ok(()) => ExitCode::SUCCESS,
        Err(failure) => {
            // Where standard error cannot be written the status alone says it.
            let _ = writeln!(std::io::stderr(), "amsulfezd {}: {}", name, failure);
            ExitCode::from(failure.status())
        }
    }
}
