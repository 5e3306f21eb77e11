//! `amsulfezd manual`: the manual page.

use super::{examples, tool};
use crate::{failure::Failure, manual, output};
use clap::{ArgMatches, Command};

pub fn command(command: Command) -> Command {
    command
        .about("The manual page, in the words of --help")
        .arg(output::option())
        .after_help(examples(&["amsulfezd manual -o amsulfezd.1"]))
}

pub fn run(words: &ArgMatches) -> Result<(), Failure> {
    output::text(words, None, &manual::page(&mut tool()))
}
