//! `amsulfezd picture`: a trace and its answers as an SVG file.

use super::heard::all_heard;
use super::{ended, examples, range, replayed};
use crate::{failure::Failure, input, output, progress};
use amsulfezd_tools::picture::picture;
use clap::{Arg, ArgAction, ArgMatches, Command};

pub fn command(command: Command) -> Command {
    command
        .about("A trace as a picture (SVG) that any browser opens; the pointer over a mark shows its words")
        .arg(input::file("A trace"))
        .args(range())
        .arg(
            Arg::new("heard")
                .long("heard")
                .action(ArgAction::SetTrue)
                .help("says below the picture who was heard, and when"),
        )
        .arg(output::option())
        .after_help(examples(&["amsulfezd picture traces/night.trace --from 18 --to 30 -o night.svg"]))
}

pub fn run(words: &ArgMatches) -> Result<(), Failure> {
    let (input, mut replay) = replayed(words)?;
    if words.get_flag("heard") {
        replay.heard = Some(all_heard(&input)?.0);
    }
    let text = progress::during("drawing", 1, |_| picture(&replay));
    let text = text.map_err(|error| Failure::Refused(error.to_string()))?;
    output::text(words, Some(&input), &text)?;
    ended(&input, &replay.run)
}
