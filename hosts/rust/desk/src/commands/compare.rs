//! `amsulfezd compare`: a trace's answers beside stored ones, or beside those of another trace.

use super::{answered, examples};
use crate::input::{Input, Kind};
use crate::{failure::Failure, input, output};
use amsulfezd::answer::Answer;
use amsulfezd::replay::replay_whole;
use amsulfezd::run::{from_text, Run};
use amsulfezd_tools::explain::Explanation;
use clap::{Arg, ArgMatches, Command, ValueHint};

pub fn command(command: Command) -> Command {
    command
        .about("Compares the answers to a trace with stored ones, or with those to another trace, entry by entry")
        .long_about(
            "Compares the answers that the proved library gives to a trace with those of a file: answers as amsulfezd replay \
             prints them, or another trace, which is replayed too. The first entry at which they part is said with both \
             answers, and the status is 1. (make compare holds the library to the published Rust.)",
        )
        .arg(input::file("A trace"))
        .arg(
            Arg::new("WITH")
                .value_hint(ValueHint::FilePath)
                .help("Answers or a trace; without it NAME.answers beside NAME.trace, standard input where it is -"),
        )
        .arg(output::option())
        .after_help(examples(&["amsulfezd compare traces/night.trace traces/night.answers"]))
}

pub fn run(words: &ArgMatches) -> Result<(), Failure> {
    let (input, run, answers) = answered(words)?;
    let beside = input
        .path
        .as_ref()
        .map(|path| path.with_extension("answers").to_string_lossy().to_string());
    let name = words.get_one::<String>("WITH").cloned().or(beside);
    let name =
        name.ok_or_else(|| Failure::Usage("no file to compare with is named".to_string()))?;
    let with = match name.as_str() {
        "-" if input.path.is_none() => {
            return Err(Failure::Usage(
                "standard input cannot be both, the trace and what it is compared with".to_string(),
            ))
        }
        "-" => input::standard()?,
        _ => input::named(&name)?,
    };
    let (their_answers, their_run) = stored(&with)?;
    let differs = answers
        .iter()
        .zip(&their_answers)
        .position(|(ours, theirs)| ours != theirs);
    let shorter = answers.len().min(their_answers.len());
    let parts = differs.or(if (&answers, run) == (&their_answers, their_run) {
        None
    } else {
        Some(shorter)
    });
    let entry = match parts {
        None => {
            let text = format!(
                "{} entries answered, ending number {}: the same\n",
                run.entries,
                run.ending_number()
            );
            return output::text(words, Some(&input), &text);
        }
        Some(entry) => entry,
    };
    let explained = Explanation::of(&input.bytes, &answers, &run);
    let explained = explained.map_err(|error| Failure::Refused(error.to_string()))?;
    let came = explained.lines.get(entry).map_or(String::new(), |line| {
        format!(" ({} {})", line.clock_words(), line.came)
    });
    Err(Failure::Refused(format!(
        "entry {}{}: {} has {}, {} has {}",
        entry + 1,
        came,
        input.name,
        said(&answers, &run, entry),
        with.name,
        said(&their_answers, &their_run, entry)
    )))
}

/// The answers of a file: as they are printed, or those to a trace.
fn stored(with: &Input) -> Result<(Vec<Answer>, Run), Failure> {
    match Kind::of(&with.bytes) {
        Kind::Trace => {
            let (run, answers) = replay_whole(&with.bytes);
            Ok((answers, run))
        }
        _ => from_text(&String::from_utf8_lossy(&with.bytes))
            .map_err(|error| Failure::Refused(format!("{}: {}", with.name, error))),
    }
}

/// The answer to an entry, or how the run ended before it.
fn said(answers: &[Answer], run: &Run, entry: usize) -> String {
    match answers.get(entry) {
        Some(&answer) => format!(
            "{:016x} ({:?}, {:?})",
            u64::from(answer),
            answer.outcome,
            answer.state
        ),
        None => format!("no answer, ending number {}", run.ending_number()),
    }
}
