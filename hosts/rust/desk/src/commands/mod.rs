//! The commands. Each is a module with `command`, its words, and `run`; a new one is added here by a line in `COMMANDS`.

mod compare;
mod completion;
mod counts;
mod explain;
mod export;
mod frame;
mod header;
mod heard;
mod import;
mod manual;
mod picture;
mod replay;
mod settings;
mod simulate;
mod view;
mod watchdog;

use crate::failure::Failure;
use crate::input::{self, Input};
use crate::progress;
use amsulfezd::answer::Answer;
use amsulfezd::refusal::Refusal;
use amsulfezd::replay::{counts as counts_of, replay_whole};
use amsulfezd::run::Run;
use amsulfezd::trace::{entries, Header};
use amsulfezd::words::thousands;
use amsulfezd_tools::from_replay::Replay;
use amsulfezd_tools::view::Range;
use clap::{Arg, ArgMatches, Command};

/// A command: its name, the words of its help, and what it does.
struct Entry {
    name: &'static str,
    command: fn(Command) -> Command,
    run: fn(&ArgMatches) -> Result<(), Failure>,
}

/// All commands, in the order of the help.
const COMMANDS: &[Entry] = &[
    Entry {
        name: "replay",
        command: replay::command,
        run: replay::run,
    },
    Entry {
        name: "explain",
        command: explain::command,
        run: explain::run,
    },
    Entry {
        name: "picture",
        command: picture::command,
        run: picture::run,
    },
    Entry {
        name: "view",
        command: view::command,
        run: view::run,
    },
    Entry {
        name: "heard",
        command: heard::command,
        run: heard::run,
    },
    Entry {
        name: "counts",
        command: counts::command,
        run: counts::run,
    },
    Entry {
        name: "import",
        command: import::command,
        run: import::run,
    },
    Entry {
        name: "export",
        command: export::command,
        run: export::run,
    },
    Entry {
        name: "simulate",
        command: simulate::command,
        run: simulate::run,
    },
    Entry {
        name: "frame",
        command: frame::command,
        run: frame::run,
    },
    Entry {
        name: "header",
        command: header::command,
        run: header::run,
    },
    Entry {
        name: "settings",
        command: settings::command,
        run: settings::run,
    },
    Entry {
        name: "watchdog",
        command: watchdog::command,
        run: watchdog::run,
    },
    Entry {
        name: "compare",
        command: compare::command,
        run: compare::run,
    },
    Entry {
        name: "completion",
        command: completion::command,
        run: completion::run,
    },
    Entry {
        name: "manual",
        command: manual::command,
        run: manual::run,
    },
];

/// The whole tool, in words: what reads the arguments, prints help, completes words and fills the manual page.
pub fn tool() -> Command {
    let tool = Command::new("amsulfezd")
        .version(env!("CARGO_PKG_VERSION"))
        .about("Traces, captures, simulations, frames and settings of a PROFIBUS station, by the proved library")
        .after_help(
            "Exit status: 0; 1 where the content of the input is refused, by number, in words and with its place; 2 where the \
             command cannot be done as it was asked.",
        )
        .subcommand_required(true)
        .arg_required_else_help(true)
        .disable_help_subcommand(true);
    COMMANDS.iter().fold(tool, |tool, entry| {
        tool.subcommand((entry.command)(Command::new(entry.name)))
    })
}

/// Does what one of them is asked.
pub fn run(name: &str, words: &ArgMatches) -> Result<(), Failure> {
    let entry = COMMANDS.iter().find(|entry| entry.name == name);
    (entry.expect("clap knows these commands alone").run)(words)
}

/// The words under a command's options: examples, each a whole line for a shell.
fn examples(lines: &[&str]) -> String {
    let heading = if lines.len() == 1 {
        "Example:"
    } else {
        "Examples:"
    };
    lines.iter().fold(heading.to_string(), |text, line| {
        format!("{}\n  {}", text, line)
    })
}

/// The options for a range of entries.
fn range() -> [Arg; 2] {
    let entry = |name: &'static str, help: &'static str| {
        Arg::new(name).long(name).value_name("N").help(help)
    };
    [
        entry("from", "begins with this entry; they count from 1"),
        entry("to", "ends with this entry"),
    ]
}

/// The trace that is named, and the answers of the proved library.
fn answered(words: &ArgMatches) -> Result<(Input, Run, Vec<Answer>), Failure> {
    let input = input::read(words)?.trace()?;
    let count = thousands(entries(&input.bytes).count() as u64);
    let (run, answers) = progress::during(&format!("replaying {} entries", count), 1, |_| {
        replay_whole(&input.bytes)
    });
    Ok((input, run, answers))
}

/// The same, with the notes beside it and the range that is asked for.
fn replayed(words: &ArgMatches) -> Result<(Input, Replay), Failure> {
    let (input, run, answers) = answered(words)?;
    let word = |name: &str| {
        words
            .try_get_one::<String>(name)
            .ok()
            .flatten()
            .map(String::as_str)
    };
    let (from, to) = (word("from"), word("to"));
    if from.is_some() || to.is_some() {
        Range::of(from, to, answers.len()).map_err(|error| Failure::Usage(error.to_string()))?;
    }
    let replay = Replay::of(
        input.path.as_deref(),
        input.bytes.clone(),
        answers,
        run,
        from,
        to,
    );
    let mut replay = replay.map_err(Failure::Refused)?;
    replay.name = input.title();
    // A refused header has no counts.
    replay.view.counts = counts_of(&input.bytes).ok().map(|(_, counts)| counts);
    Ok((input, replay))
}

/// That a run was refused before its end, with the place. What it made before stands and was written.
fn ended(input: &Input, run: &Run) -> Result<(), Failure> {
    match run.ending {
        None => Ok(()),
        Some(Refusal::Cut) if Header::from_bytes(&input.bytes).is_some() => Err(Failure::refusal(
            &format!("{}, entry {}", input.name, run.entries + 1),
            Refusal::Cut,
        )),
        Some(refusal) => Err(Failure::refusal(
            &format!("{}, header", input.name),
            refusal,
        )),
    }
}

#[cfg(test)]
mod tests {
    /// clap's own checks: no name twice, no option without its value's name, and the like.
    #[test]
    fn the_words_are_sound() {
        super::tool().debug_assert();
    }
}
