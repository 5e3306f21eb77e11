//! `amsulfezd heard`: who was heard in a trace, and when.

use super::{ended, examples};
use crate::input::Input;
use crate::{failure::Failure, input, output, progress};
use amsulfezd::heard::{Heard, LAST_ADDRESS};
use amsulfezd::refusal::Refusal;
use amsulfezd::replay::heard;
use amsulfezd::run::Run;
use clap::{ArgMatches, Command};

pub fn command(command: Command) -> Command {
    command
        .about(
            "Who was heard in a trace, how often, first and last, and what the last response said",
        )
        .arg(input::file("A trace"))
        .arg(output::option())
        .after_help(examples(&["amsulfezd heard traces/night.trace"]))
}

pub fn run(words: &ArgMatches) -> Result<(), Failure> {
    let input = input::read(words)?.trace()?;
    let (heard, run) = all_heard(&input)?;
    let text = amsulfezd_tools::heard::heard(&input.bytes, &heard, &run);
    let text = text.map_err(|error| Failure::Refused(error.to_string()))?;
    output::text(words, Some(&input), &text)?;
    ended(&input, &run)
}

/// Asks the proved library for every address. A refused header is refused here; a cut entry is how the run ends.
pub fn all_heard(input: &Input) -> Result<(Vec<(u8, Heard)>, Run), Failure> {
    let steps = u64::from(LAST_ADDRESS) + 1;
    let asked = progress::during("asking for each address", steps, |bar| {
        let mut all = Vec::new();
        let mut last = None;
        for address in 0..=LAST_ADDRESS {
            let (run, entry) = heard(&input.bytes, address)?;
            all.extend(entry.map(|entry| (address, entry)));
            last = Some(run);
            bar.inc(1);
        }
        Ok((all, last.expect("126 runs")))
    });
    asked.map_err(|refusal: Refusal| Failure::refusal(&format!("{}, header", input.name), refusal))
}
