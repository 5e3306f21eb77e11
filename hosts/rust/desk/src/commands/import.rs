//! `amsulfezd import`: a trace of a capture, in any of the forms that it comes in.

use super::examples;
use crate::input::{Input, Kind};
use crate::{failure::Failure, input, output, pcap, progress, settings};
use amsulfezd::capture::import_whole;
use amsulfezd::replay::other_edition;
use amsulfezd::trace::HEADER_LENGTH;
use clap::{Arg, ArgAction, ArgMatches, Command};

pub fn command(command: Command) -> Command {
    command
        .about("Makes a trace of a bus monitor's capture: a text with a time and a frame on each line, or a pcap file")
        .long_about(
            "Makes a trace of a bus monitor's capture: a text with a time and a frame on each line, or a pcap file with link \
             type 257 (PROFIBUS) or 147 (private use). Which of them it is, its content tells. Before the entries stand a header with the settings \
             below, for a station with one application that declines, and online. A trace is taken as it is, if its header is \
             accepted, and has its own settings. A refused line or packet is named, and nothing is written.",
        )
        .arg(input::file("A capture's text, a pcap file or a trace"))
        .args(settings::options())
        .arg(
            Arg::new("from-first")
                .long("from-first")
                .action(ArgAction::SetTrue)
                .help("counts the times from that of the first frame; a clock has 48 bits, which times since 1970 have not"),
        )
        .arg(output::option())
        .after_help(examples(&["amsulfezd import traces/captures/site.capture --address 5 --baud 6 -o site.trace"]))
}

pub fn run(words: &ArgMatches) -> Result<(), Failure> {
    let input = input::read(words)?;
    let from_first = words.get_flag("from-first");
    if Kind::of(&input.bytes) == Kind::Trace {
        let given = settings::given(words);
        if from_first || !given.is_empty() {
            return Err(Failure::Usage(format!(
                "{}: this is a trace, which has its settings and times",
                input.name
            )));
        }
        let refused = |refusal| Failure::refusal(&format!("{}, header", input.name), refusal);
        other_edition(&input.bytes, &mut [0; HEADER_LENGTH]).map_err(refused)?;
        return output::bytes(words, Some(&input), &input.bytes);
    }
    let (header, edition) = settings::header(words, 1);
    let mut trace = settings::accepted(&header, edition)?;
    let text = text_of(&input, from_first)?;
    let (entries, refused) = progress::during("importing", 1, |_| import_whole(text.as_bytes()));
    if let Some(refused) = refused {
        let place = if Kind::of(&input.bytes) == Kind::Pcap {
            "packet"
        } else {
            "line"
        };
        return Err(Failure::refusal(
            &format!("{}, {} {}", input.name, place, refused.at),
            refused.refusal,
        ));
    }
    trace.push(0);
    trace.extend(entries);
    output::bytes(words, Some(&input), &trace)
}

/// The text of a capture in either form, with its times from the first one where that is asked for.
pub fn text_of(input: &Input, from_first: bool) -> Result<String, Failure> {
    let packets = match Kind::of(&input.bytes) {
        Kind::Pcap => {
            let packets = pcap::read(&input.bytes);
            packets.map_err(|why| Failure::Refused(format!("{}: {}", input.name, why)))?
        }
        // Bytes that are no text are 31 in their line, as any other bad byte is.
        _ if !from_first => {
            return Ok(input
                .bytes
                .iter()
                .map(|&byte| if byte < 0x80 { char::from(byte) } else { '?' })
                .collect())
        }
        _ => {
            let text = text_of(input, false)?;
            let (_, refused) = import_whole(text.as_bytes());
            if let Some(refused) = refused {
                return Err(Failure::refusal(
                    &format!("{}, line {}", input.name, refused.at),
                    refused.refusal,
                ));
            }
            pcap::of_text(&text).expect("the import took it")
        }
    };
    let first = packets.first().map_or(0, |packet| packet.time);
    let since = |packet: &pcap::Packet| {
        packet
            .time
            .saturating_sub(if from_first { first } else { 0 })
    };
    let moved: Vec<pcap::Packet> = packets
        .iter()
        .map(|packet| pcap::Packet {
            time: since(packet),
            ..packet.clone()
        })
        .collect();
    Ok(pcap::to_text(&moved))
}
