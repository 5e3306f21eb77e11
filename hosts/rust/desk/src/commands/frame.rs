//! `amsulfezd frame`: the bytes of frames in words, and words as bytes.

use super::examples;
use crate::{failure::Failure, input, output};
use amsulfezd::frame::{read, write, LONGEST_WRITTEN};
use amsulfezd::record::{StationType, Telegram};
use amsulfezd_tools::explain::telegram_words;
use clap::{Arg, ArgAction, ArgMatches, Command};

pub fn command(command: Command) -> Command {
    command
        .about("Frames as they stand on the bus: hexadecimal digits in, words out, and back")
        .long_about(
            "Reads frames, one behind the other, from hexadecimal digits, and says each in words; spaces between digits do not \
             count. With --write words become a frame: \"token 9->5\", \"short confirmation\", \"status request 9->5\", \
             \"response 20->5 (slave, status 8)\". The types are slave, not ready, without token and in ring; status 0 is Ok.",
        )
        .arg(
            Arg::new("WORDS")
                .num_args(0..)
                .help("The digits, or the words; lines of standard input without them"),
        )
        .arg(
            Arg::new("write")
                .short('w')
                .long("write")
                .action(ArgAction::SetTrue)
                .help("makes frames of words"),
        )
        .arg(output::option())
        .after_help(examples(&[
            "amsulfezd frame 10 05 09 49 57 16",
            "amsulfezd frame --write \"status request 9->5\"",
        ]))
}

pub fn run(words: &ArgMatches) -> Result<(), Failure> {
    let given: Vec<&String> = words
        .get_many::<String>("WORDS")
        .unwrap_or_default()
        .collect();
    let (place, lines): (&str, Vec<String>) = if given.is_empty() {
        let bytes = input::instead("no frame is named")?.bytes;
        // Bytes that are no text are no digits and no words either.
        let text = String::from_utf8_lossy(&bytes);
        (
            "standard input, line",
            text.lines().map(str::to_string).collect(),
        )
    } else {
        let joined: Vec<&str> = given.iter().map(|word| word.as_str()).collect();
        ("line", vec![joined.join(" ")])
    };
    let mut text = String::new();
    for (index, line) in lines.iter().enumerate() {
        let place = format!("{} {}", place, index + 1);
        let made = if words.get_flag("write") {
            written(&place, line)
        } else {
            said(&place, line)
        };
        text.push_str(&made?);
    }
    output::text(words, None, &text)
}

/// Each frame of a line of digits: its bytes, and its words.
fn said(place: &str, line: &str) -> Result<String, Failure> {
    let bytes = digits(line)
        .ok_or_else(|| Failure::Refused(format!("{}: not pairs of hexadecimal digits", place)))?;
    let mut text = String::new();
    let mut at = 0;
    while at < bytes.len() || bytes.is_empty() {
        let frame = read(&bytes[at..])
            .map_err(|refusal| Failure::refusal(&format!("{}, byte {}", place, at + 1), refusal))?;
        let end = at + frame.used;
        text.push_str(&format!(
            "{}  {}\n",
            hexadecimal(&bytes[at..end]),
            telegram_words(&frame.telegram)
        ));
        at = end;
    }
    Ok(text)
}

/// The bytes that digits give; spaces between pairs do not count.
fn digits(line: &str) -> Option<Vec<u8>> {
    let digits: Vec<u32> = line
        .split_whitespace()
        .flat_map(str::chars)
        .map(|digit| digit.to_digit(16))
        .collect::<Option<_>>()?;
    if digits.len() % 2 != 0 {
        return None;
    }
    Some(
        digits
            .chunks(2)
            .map(|pair| (pair[0] << 4 | pair[1]) as u8)
            .collect(),
    )
}

fn hexadecimal(bytes: &[u8]) -> String {
    bytes
        .iter()
        .map(|byte| format!("{:02x}", byte))
        .collect::<Vec<_>>()
        .join(" ")
}

/// The frame of a telegram's words.
fn written(place: &str, line: &str) -> Result<String, Failure> {
    let unknown = || {
        Failure::Refused(format!(
            "{}: no telegram's words: '{}' (--help has them)",
            place, line
        ))
    };
    let telegram = telegram(line).ok_or_else(unknown)?;
    let word = telegram.word().map_err(|_| {
        Failure::Refused(format!(
            "{}: an address is 0 to 127 and a status 0 to 15: '{}'",
            place, line
        ))
    })?;
    let mut frame = [0; LONGEST_WRITTEN];
    let length = write(word, &mut frame).map_err(|refusal| Failure::refusal(place, refusal))?;
    Ok(format!("{}\n", hexadecimal(&frame[..length])))
}

/// The telegram that words name, as the reading side prints them.
fn telegram(line: &str) -> Option<Telegram> {
    let line = line.trim().replace("->", "→");
    if line == "short confirmation" {
        return Some(Telegram::ShortConfirmation);
    }
    let (line, more) = match line.split_once('(') {
        Some((line, more)) => (line.trim(), Some(more.strip_suffix(')')?)),
        None => (line.as_str(), None),
    };
    let (kind, addresses) = line.rsplit_once(' ')?;
    let (source, destination) = addresses.split_once('→')?;
    let (source, destination) = (source.parse().ok()?, destination.parse().ok()?);
    match (kind, more) {
        ("token", None) => Some(Telegram::token(source, destination)),
        ("status request", None) => Some(Telegram::status_request(source, destination)),
        ("request", None) => Some(Telegram::request(source, destination)),
        ("response", more) => {
            let (wanted, status) = more?.split_once(',')?;
            let mut types = (0..4).filter_map(|number| StationType::try_from(number).ok());
            let station_type = types.find(|kind| kind.to_string() == wanted.trim())?;
            let status = match status.trim() {
                "Ok" => 0,
                words => words.strip_prefix("status ")?.parse().ok()?,
            };
            Some(Telegram::response_with_status(
                source,
                destination,
                station_type,
                status,
            ))
        }
        _ => None,
    }
}

#[cfg(test)]
mod tests {
    use super::*;

    /// Words that are printed are words that are taken.
    #[test]
    fn words_come_back() {
        for given in [
            Telegram::token(9, 5),
            Telegram::ShortConfirmation,
            Telegram::status_request(9, 5),
            Telegram::request(9, 5),
            Telegram::response(20, 5, StationType::NotReady),
            Telegram::response_with_status(20, 5, StationType::Slave, 8),
        ] {
            assert_eq!(telegram(&telegram_words(&given)), Some(given));
        }
        assert_eq!(telegram("token 9->5"), Some(Telegram::token(9, 5)));
        for none in [
            "",
            "token",
            "token 9",
            "token 9->",
            "token 9->300",
            "token 9->5 (slave, Ok)",
            "response 9->5",
        ] {
            assert_eq!(telegram(none), None, "{}", none);
        }
    }
}
