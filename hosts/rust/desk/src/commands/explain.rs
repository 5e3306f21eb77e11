//! `amsulfezd explain`: a trace and its answers in words.

use super::{ended, examples, range, replayed};
use crate::{failure::Failure, input, output, progress};
use amsulfezd_tools::explain::explain;
use clap::{ArgMatches, Command};

pub fn command(command: Command) -> Command {
    command
        .about("A line in words for each entry of a trace: what came, the state, what the station did and why")
        .long_about(
            "A line in words for each entry of a trace: what came, the state, what the station did and why. A file NAME.notes \
             beside NAME.trace tells what no record can; its lines stand between the entries.",
        )
        .arg(input::file("A trace"))
        .args(range())
        .arg(output::option())
        .after_help(examples(&["amsulfezd explain traces/night.trace --from 24 --to 28"]))
}

pub fn run(words: &ArgMatches) -> Result<(), Failure> {
    let (input, replay) = replayed(words)?;
    let text = progress::during("putting the answers into words", 1, |_| {
        explain(&replay.trace, &replay.answers, &replay.run, &replay.view)
    });
    let text = text.map_err(|error| Failure::Refused(error.to_string()))?;
    output::text(words, Some(&input), &text)?;
    ended(&input, &replay.run)
}
