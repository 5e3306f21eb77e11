//! What a command writes: a file, which gets its name when it is whole, or standard output.

use crate::failure::Failure;
use crate::input::Input;
use clap::{Arg, ArgMatches, ValueHint};
use std::io::{ErrorKind, Write};
use std::path::{Path, PathBuf};

/// The option that names a file.
pub fn option() -> Arg {
    Arg::new("OUT")
        .short('o')
        .long("output")
        .value_name("FILE")
        .value_hint(ValueHint::FilePath)
        .help("writes to this file; else to standard output")
}

/// Where the words say that the output goes.
fn named(words: &ArgMatches) -> Option<&str> {
    words
        .get_one::<String>("OUT")
        .map(String::as_str)
        .filter(|&name| name != "-")
}

/// The ending of the output's name, after its last point, in small letters.
pub fn ending(words: &ArgMatches) -> Option<String> {
    let name = Path::new(named(words)?);
    Some(name.extension()?.to_str()?.to_ascii_lowercase())
}

/// Writes a text.
pub fn text(words: &ArgMatches, input: Option<&Input>, text: &str) -> Result<(), Failure> {
    write(words, input, text.as_bytes())
}

/// Writes bytes that are no text. They do not go to a terminal.
pub fn bytes(words: &ArgMatches, input: Option<&Input>, bytes: &[u8]) -> Result<(), Failure> {
    if named(words).is_none() && console::Term::stdout().features().is_attended() {
        return Err(Failure::Usage(
            "the output is no text and does not go to a terminal: name a file with -o".to_string(),
        ));
    }
    write(words, input, bytes)
}

fn write(words: &ArgMatches, input: Option<&Input>, bytes: &[u8]) -> Result<(), Failure> {
    match named(words) {
        None => print(bytes),
        Some(name) => file(Path::new(name), input, bytes),
    }
}

/// Writes to standard output.
pub fn print(bytes: &[u8]) -> Result<(), Failure> {
    let mut out = std::io::stdout().lock();
    match out.write_all(bytes).and_then(|()| out.flush()) {
        // A reader that is gone has enough.
        Err(error) if error.kind() == ErrorKind::BrokenPipe => Ok(()),
        written => written.map_err(|error| Failure::of_file("standard output", error)),
    }
}

/// Writes to a file that is not the one that it is made from.
pub fn file(path: &Path, input: Option<&Input>, bytes: &[u8]) -> Result<(), Failure> {
    let name = path.display().to_string();
    let same = |other: &PathBuf| other.canonicalize().ok() == path.canonicalize().ok();
    if input
        .and_then(|input| input.path.as_ref())
        .map_or(false, same)
    {
        return Err(Failure::Usage(format!(
            "{} is the file that it is made from",
            name
        )));
    }
    whole_file(path, bytes).map_err(|error| Failure::of_file(&name, error))
}

/// Writes a file beside the one that is named and gives it the name when it is whole.
fn whole_file(file: &Path, bytes: &[u8]) -> std::io::Result<()> {
    if file.exists() && !file.is_file() {
        // A pipe or a device has no unfinished state.
        return std::fs::write(file, bytes);
    }
    let mut part = file.as_os_str().to_os_string();
    part.push(format!(".part-{}", std::process::id()));
    let written = std::fs::write(&part, bytes).and_then(|()| std::fs::rename(&part, file));
    if written.is_err() {
        let _ = std::fs::remove_file(&part);
    }
    written
}
