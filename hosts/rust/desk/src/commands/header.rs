//! `amsulfezd header`: a trace's header, and the same in the other edition.

use super::examples;
use crate::{failure::Failure, input, output};
use amsulfezd::replay::other_edition;
use amsulfezd::trace::{Edition, Header, HEADER_LENGTH};
use amsulfezd::words::settings;
use clap::{Arg, ArgAction, ArgMatches, Command};

pub fn command(command: Command) -> Command {
    command
        .about(
            "Shows a trace's header, or moves it to the other edition: 14 bytes for 16, 16 for 14",
        )
        .arg(input::file("A trace"))
        .arg(
            Arg::new("move")
                .short('m')
                .long("move")
                .action(ArgAction::SetTrue)
                .help("writes the trace with its header in the other edition"),
        )
        .arg(output::option())
        .after_help(examples(&[
            "amsulfezd header traces/night.trace",
            "amsulfezd header traces/night.trace --move -o shorter.trace",
        ]))
}

pub fn run(words: &ArgMatches) -> Result<(), Failure> {
    let input = input::read(words)?.trace()?;
    let mut moved = [0; HEADER_LENGTH];
    let answer = other_edition(&input.bytes, &mut moved);
    let edition = Edition::of(&input.bytes);
    let refused = |refusal| Failure::refusal(&format!("{}, header", input.name), refusal);
    if words.get_flag("move") {
        let length = answer.map_err(refused)?;
        let mut trace = moved[..length].to_vec();
        trace.extend(&input.bytes[edition.header_length()..]);
        return output::bytes(words, Some(&input), &trace);
    }
    if let Some(header) = Header::from_bytes(&input.bytes) {
        let digits = |bytes: &[u8]| {
            bytes
                .iter()
                .map(|byte| format!("{:02x}", byte))
                .collect::<String>()
        };
        let mut text = format!("{}\n", settings(&header, edition));
        let mut line = |edition: Edition, bytes: &[u8]| {
            text.push_str(&format!(
                "edition {}, {} bytes: {}\n",
                edition.number(),
                bytes.len(),
                digits(bytes)
            ));
        };
        line(edition, &input.bytes[..edition.header_length()]);
        if let Ok(length) = answer {
            line(edition.other(), &moved[..length]);
            text.push_str("It is accepted.\n");
        }
        output::text(words, Some(&input), &text)?;
    }
    answer.map(|_| ()).map_err(refused)
}
