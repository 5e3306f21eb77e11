//! What a command reads: a file, or standard input. Which kind of file it is, its content tells.

use crate::failure::Failure;
use crate::pcap;
use amsulfezd::trace::SECOND_EDITION;
use clap::{Arg, ArgMatches, ValueHint};
use std::io::Read;
use std::path::{Path, PathBuf};

/// What was read.
#[derive(Debug, Clone)]
pub struct Input {
    /// As messages name it.
    pub name: String,
    /// None for standard input.
    pub path: Option<PathBuf>,
    pub bytes: Vec<u8>,
}

/// What some editors put before a text.
const TEXT_MARK: &[u8] = b"\xef\xbb\xbf";

/// How a file begins that gzip has packed.
const GZIP: &[u8] = b"\x1f\x8b\x08";

/// The kinds of file that traces and captures come in.
#[derive(Debug, Clone, Copy, PartialEq, Eq)]
pub enum Kind {
    Trace,
    Text,
    Pcap,
}

impl Kind {
    /// The kind of these bytes. No header that is accepted begins as a pcap file does, nor with two printable characters, as
    /// a line of a capture does: its second byte is the baud code, 0 to 10, or belongs to edition 2, which begins with 82h. The
    /// mark that some editors put before a text begins no header either.
    pub fn of(bytes: &[u8]) -> Kind {
        let printable = |byte: &u8| (0x20..0x7f).contains(byte);
        if pcap::begins(bytes) {
            Kind::Pcap
        } else if bytes.starts_with(TEXT_MARK)
            || bytes.first() != Some(&SECOND_EDITION)
                && bytes.get(1).map_or(bytes.is_empty(), printable)
        {
            Kind::Text
        } else {
            Kind::Trace
        }
    }

    pub fn words(self) -> &'static str {
        match self {
            Kind::Trace => "a trace",
            Kind::Text => "a text",
            Kind::Pcap => "a pcap file",
        }
    }
}

/// The argument that names a file.
pub fn file(what: &'static str) -> Arg {
    Arg::new("FILE")
        .value_hint(ValueHint::FilePath)
        .help(format!(
            "{}; standard input without it, or where it is -",
            what
        ))
}

/// What the argument names.
pub fn read(words: &ArgMatches) -> Result<Input, Failure> {
    match words.get_one::<String>("FILE").map(String::as_str) {
        None => instead("no file is named"),
        Some("-") => standard(),
        Some(name) => named(name),
    }
}

/// What stands in the file of this name.
pub fn named(name: &str) -> Result<Input, Failure> {
    let bytes = std::fs::read(name).map_err(|error| Failure::of_file(name, error))?;
    unpacked(Input {
        name: name.to_string(),
        path: Some(PathBuf::from(name)),
        bytes,
    })
}

/// What stands on standard input.
pub fn standard() -> Result<Input, Failure> {
    let name = "standard input".to_string();
    let mut bytes = Vec::new();
    let read = std::io::stdin().lock().read_to_end(&mut bytes);
    read.map_err(|error| Failure::of_file(&name, error))?;
    unpacked(Input {
        name,
        path: None,
        bytes,
    })
}

/// The same, if it is not packed, as Wireshark packs captures. No header that is accepted begins so.
fn unpacked(input: Input) -> Result<Input, Failure> {
    if input.bytes.starts_with(GZIP) {
        return Err(Failure::Refused(format!(
            "{}: this is packed by gzip: unpack it first",
            input.name
        )));
    }
    Ok(input)
}

/// Standard input in the place of what was not named, unless a person would have to type it.
pub fn instead(lacks: &str) -> Result<Input, Failure> {
    if stdin_is_terminal() {
        return Err(Failure::Usage(format!(
            "{}, and standard input is a terminal (--help has an example)",
            lacks
        )));
    }
    standard()
}

/// Whether standard input is a terminal. Rust 1.63 cannot ask this, and the crate `console` asks it of the outputs alone; the
/// system names the file that it is.
fn stdin_is_terminal() -> bool {
    let file = std::fs::read_link("/proc/self/fd/0").unwrap_or_default();
    file.starts_with("/dev/pts") || file.starts_with("/dev/tty") || file.starts_with("/dev/console")
}

impl Input {
    /// The file's name without its folder, as a heading.
    pub fn title(&self) -> String {
        let name = self.path.as_deref().and_then(Path::file_name);
        name.map_or(self.name.clone(), |name| name.to_string_lossy().to_string())
    }

    /// The same if it is a trace.
    pub fn trace(self) -> Result<Input, Failure> {
        match Kind::of(&self.bytes) {
            Kind::Trace => Ok(self),
            _ if self.bytes.is_empty() => Err(Failure::Refused(format!(
                "{}: this is empty, and no trace",
                self.name
            ))),
            kind => Err(Failure::Refused(format!(
                "{}: this is {}, and no trace; amsulfezd import makes one of a capture",
                self.name,
                kind.words()
            ))),
        }
    }
}

#[cfg(test)]
mod tests {
    use super::Kind;

    #[test]
    fn kinds() {
        for (bytes, kind) in [
            (&b""[..], Kind::Text),
            (b"1000 dc0509\n", Kind::Text),
            (b"0 e5\n", Kind::Text),
            (b" \t", Kind::Trace),
            (b"hello", Kind::Text),
            (b"\xef\xbb\xbf0 e5\n", Kind::Text),
            (b"\x05\x06\x00\xc8", Kind::Trace),
            (b"\x35\x0a\x03\xe8", Kind::Trace),
            (b"\x82\x20", Kind::Trace),
            (b"\x05", Kind::Trace),
            (b"\xd4\xc3\xb2\xa1", Kind::Pcap),
            (b"\xa1\xb2\xc3\xd4", Kind::Pcap),
            (b"\x4d\x3c\xb2\xa1", Kind::Pcap),
            (b"\xa1\xb2\x3c\x4d", Kind::Pcap),
            (b"\x34\xcd\xb2\xa1", Kind::Pcap),
            (b"\x0a\x0d\x0d\x0a", Kind::Pcap),
        ] {
            assert_eq!(Kind::of(bytes), kind, "{:?}", bytes);
        }
    }
}
