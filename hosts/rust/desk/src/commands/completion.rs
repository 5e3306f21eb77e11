//! `amsulfezd completion`: the words that a shell completes.

use super::{examples, tool};
use crate::{failure::Failure, output};
use clap::{Arg, ArgMatches, Command};
use clap_complete::{generate, Shell};

pub fn command(command: Command) -> Command {
    command
        .about("What a shell reads to complete the words of this program")
        .arg(
            Arg::new("SHELL")
                .required(true)
                .value_parser(["bash", "zsh", "fish"])
                .help("The shell"),
        )
        .arg(output::option())
        .after_help(examples(&["amsulfezd completion bash"]))
}

pub fn run(words: &ArgMatches) -> Result<(), Failure> {
    let shell = match words.get_one::<String>("SHELL").map(String::as_str) {
        Some("zsh") => Shell::Zsh,
        Some("fish") => Shell::Fish,
        _ => Shell::Bash,
    };
    let mut text = Vec::new();
    generate(shell, &mut tool(), "amsulfezd", &mut text);
    let mut text = String::from_utf8_lossy(&text).to_string();
    if shell == Shell::Bash {
        text = with_files(&text);
    }
    output::text(words, None, &text)
}

/// What is made for bash offers options where nothing is typed yet, and the name that the help has for a file. There a person looks
/// for files: nothing is offered then, and bash completes files by itself.
fn with_files(script: &str) -> String {
    let mut text = String::new();
    for line in script.lines() {
        match line.split_once("opts=\"") {
            Some((before, words)) => {
                let no_name = |word: &&str| !word.starts_with('[') && !word.starts_with('<');
                let kept: Vec<&str> = words.split(' ').filter(no_name).collect();
                let kept = kept.join(" ");
                let kept = kept.trim_end_matches('"');
                text.push_str(&format!("{}opts=\"{}\"\n", before, kept));
                if words.contains("[FILE]") {
                    let files = "if [[ -z ${cur} && ${prev} != -* ]] ; then return 0 ; fi";
                    text.push_str(&format!("{}{}\n", before, files));
                }
            }
            None => text.push_str(&format!("{}\n", line)),
        }
    }
    text
}
