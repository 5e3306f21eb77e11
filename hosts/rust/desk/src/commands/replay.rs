//! `amsulfezd replay`: the answers of the proved library.

use super::{answered, ended, examples};
use crate::{failure::Failure, input, output};
use amsulfezd::run::to_text;
use clap::{ArgMatches, Command};

pub fn command(command: Command) -> Command {
    command
        .about("The answer to each entry of a trace as 16 hexadecimal digits, then entries answered and ending number")
        .arg(input::file("A trace"))
        .arg(output::option())
        .after_help(examples(&["amsulfezd replay traces/example12.trace"]))
}

pub fn run(words: &ArgMatches) -> Result<(), Failure> {
    let (input, run, answers) = answered(words)?;
    output::text(words, Some(&input), &to_text(&answers, &run))?;
    ended(&input, &run)
}
