//! `amsulfezd view`: a trace and its answers as a page for a browser.

use super::heard::all_heard;
use super::{ended, examples, replayed};
use crate::{failure::Failure, input, output, page, progress};
use clap::{ArgMatches, Command};

pub fn command(command: Command) -> Command {
    command
        .about("A trace as one HTML file without a network: timeline, table, search, the counts, who was heard")
        .long_about(
            "A trace as one HTML file that a browser opens without a network: the timeline, which is zoomed with the wheel and \
             dragged, a table of the entries in words, a click on one marks the other, a search by address, state, refusal, \
             notice, alarm and words, the counts, and who was heard.",
        )
        .arg(input::file("A trace"))
        .arg(output::option())
        .after_help(examples(&["amsulfezd view traces/night.trace -o night.html"]))
}

pub fn run(words: &ArgMatches) -> Result<(), Failure> {
    let (input, mut replay) = replayed(words)?;
    // Of a refused header nobody can be asked for.
    if replay.run.ending.map_or(true, |_| replay.run.entries != 0) {
        replay.heard = Some(all_heard(&input)?.0);
    }
    let text = progress::during("making the page", 1, |_| page::page(&replay));
    let text = text.map_err(|error| Failure::Refused(error.to_string()))?;
    output::text(words, Some(&input), &text)?;
    ended(&input, &replay.run)
}
