//! `amsulfezd counts`: how often the station claimed the token, removed a neighbour and met its own address.

use super::{ended, examples};
use crate::{failure::Failure, input, output, progress};
use amsulfezd::replay::counts;
use amsulfezd_tools::counts::table;
use clap::{ArgMatches, Command};

pub fn command(command: Command) -> Command {
    command
        .about("How often the station claimed the token, removed a neighbour and met its own address in a trace")
        .arg(input::file("A trace"))
        .arg(output::option())
        .after_help(examples(&["amsulfezd counts traces/night.trace"]))
}

pub fn run(words: &ArgMatches) -> Result<(), Failure> {
    let input = input::read(words)?.trace()?;
    let asked = progress::during("counting", 1, |_| counts(&input.bytes));
    let place = format!("{}, header", input.name);
    let (run, counts) = asked.map_err(|refusal| Failure::refusal(&place, refusal))?;
    let text = table(&input.bytes, Some(counts), &run);
    let text = text.map_err(|error| Failure::Refused(error.to_string()))?;
    output::text(words, Some(&input), &text)?;
    ended(&input, &run)
}
