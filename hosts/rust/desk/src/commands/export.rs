//! `amsulfezd export`: a trace or a capture for other programs.

use super::import::text_of;
use super::{ended, examples};
use crate::input::{Input, Kind};
use crate::{failure::Failure, input, output, pcap, progress};
use amsulfezd::answer::{Answer, NextStation, Notice, Sent};
use amsulfezd::capture::{export_whole, import_whole};
use amsulfezd::refusal::Refusal;
use amsulfezd::replay::{other_edition, replay_whole};
use amsulfezd::run::Run;
use amsulfezd::trace::{Edition, Header, HEADER_LENGTH};
use amsulfezd_tools::explain::{Explanation, Line};
use clap::{Arg, ArgAction, ArgMatches, Command};

pub fn command(command: Command) -> Command {
    command
        .about("Makes a capture's text, a pcap file or a table (CSV) of a trace; a pcap file of a capture's text, and back")
        .long_about(
            "Makes a file that other programs open. Of a trace with one application: a capture's text or a pcap file, with a line \
             or packet for each telegram that can be written as a frame. Of any trace: a table of its answers for a spreadsheet \
             (CSV). Of a capture's text: a pcap file with the frames as they are, and of a pcap file the text. A refused entry, \
             line or packet is named, and nothing is written.",
        )
        .arg(input::file("A trace, a capture's text or a pcap file"))
        .arg(
            Arg::new("AS")
                .long("as")
                .value_name("FORM")
                .value_parser(["text", "pcap", "csv"])
                .help("what is made; without it what the ending of -o says (.pcap, .csv), else text"),
        )
        .arg(
            Arg::new("private")
                .long("private")
                .action(ArgAction::SetTrue)
                .help("pcap with link type 147, for private use, in the place of 257, PROFIBUS: Wireshark 4.0 opens it"),
        )
        .arg(output::option())
        .after_help(examples(&[
            "amsulfezd export traces/captures/site.trace -o site.pcap",
            "amsulfezd export traces/night.trace --as csv -o night.csv",
        ]))
}

pub fn run(words: &ArgMatches) -> Result<(), Failure> {
    let input = input::read(words)?;
    let form = words.get_one::<String>("AS").cloned();
    let form = form.or_else(|| output::ending(words));
    let form = form.as_deref();
    let link = match words.get_flag("private") {
        true if form != Some("pcap") => {
            return Err(Failure::Usage(
                "--private is for a pcap file: --as pcap, or a name that ends in .pcap".to_string(),
            ))
        }
        true => pcap::USER,
        false => pcap::PROFIBUS,
    };
    let kind = Kind::of(&input.bytes);
    match (form, kind) {
        (Some("csv"), Kind::Trace) => csv(words, &input),
        (Some("csv"), _) => Err(Failure::Usage(format!(
            "{}: this is {}, and a table is made of a trace's answers; amsulfezd import makes a trace of it",
            input.name,
            kind.words()
        ))),
        (form, kind) => {
            let text = if kind == Kind::Trace { exported(&input)? } else { taken(&input)? };
            match form {
                Some("pcap") => {
                    let packets = pcap::of_text(&text).expect("the proved library wrote or took it");
                    output::bytes(words, Some(&input), &pcap::write(&packets, link))
                }
                _ => output::text(words, Some(&input), &text),
            }
        }
    }
}

/// The text of a trace with one application, by the proved library.
fn exported(input: &Input) -> Result<String, Failure> {
    let trace = &input.bytes;
    let refused = |refusal| Failure::refusal(&format!("{}, header", input.name), refusal);
    other_edition(trace, &mut [0; HEADER_LENGTH]).map_err(refused)?;
    let header = Header::from_bytes(trace).ok_or_else(|| refused(Refusal::Cut))?;
    if header.applications != 1 {
        return Err(Failure::Refused(format!(
            "{}: it has {} applications, and a capture is of a trace with one",
            input.name, header.applications
        )));
    }
    let entries = &trace[Edition::of(trace).header_length()..];
    let (text, refused) = progress::during("exporting", 1, |_| export_whole(entries));
    match refused {
        Some(refused) => Err(Failure::refusal(
            &format!("{}, entry {}", input.name, refused.at),
            refused.refusal,
        )),
        None => Ok(String::from_utf8(text)
            .expect("the call is proved to write digits, spaces and line feeds")),
    }
}

/// The text of a capture that the proved import takes.
fn taken(input: &Input) -> Result<String, Failure> {
    let text = text_of(input, false)?;
    let place = if Kind::of(&input.bytes) == Kind::Pcap {
        "packet"
    } else {
        "line"
    };
    match import_whole(text.as_bytes()).1 {
        Some(refused) => Err(Failure::refusal(
            &format!("{}, {} {}", input.name, place, refused.at),
            refused.refusal,
        )),
        None => Ok(text),
    }
}

/// The columns of the table.
const COLUMNS: [&str; 19] = [
    "entry",
    "clock_us",
    "came",
    "state_before",
    "state",
    "outcome",
    "refusal",
    "sent",
    "to",
    "response_type",
    "application",
    "high",
    "bytes",
    "consumed",
    "notice",
    "notice_application",
    "notice_address",
    "next_station",
    "words",
];

/// The table of a trace's answers: a line for each entry.
fn csv(words: &ArgMatches, input: &Input) -> Result<(), Failure> {
    let (run, answers) = progress::during("replaying", 1, |_| replay_whole(&input.bytes));
    let text = progress::during("making the table", 1, |_| table(input, &answers, &run))?;
    output::text(words, Some(input), &text)?;
    ended(input, &run)
}

/// The text of that table.
fn table(input: &Input, answers: &[Answer], run: &Run) -> Result<String, Failure> {
    let explained = Explanation::of(&input.bytes, answers, run);
    let explained = explained.map_err(|error| Failure::Refused(error.to_string()))?;
    let mut table = csv::Writer::from_writer(Vec::new());
    let mut put = |row: &[String]| table.write_record(row).expect("it is written to memory");
    put(&COLUMNS.map(str::to_string));
    for line in &explained.lines {
        put(&row(line));
    }
    let bytes = table.into_inner().expect("it is written to memory");
    Ok(String::from_utf8(bytes).expect("rows of text"))
}

/// A line of the table. What an answer does not have is empty.
fn row(line: &Line) -> [String; 19] {
    let answer: &Answer = &line.answer;
    let none = String::new;
    let (sent, to, kind, application, high) = match answer.sent {
        Sent::Nothing => (none(), none(), none(), none(), none()),
        Sent::Token { to } => ("token".to_string(), to.to_string(), none(), none(), none()),
        Sent::StatusRequest { to } => (
            "status request".to_string(),
            to.to_string(),
            none(),
            none(),
            none(),
        ),
        Sent::StatusResponse { to, station_type } => (
            "status response".to_string(),
            to.to_string(),
            station_type.to_string(),
            none(),
            none(),
        ),
        Sent::Application {
            application,
            high,
            reply_from,
            ..
        } => (
            "application's telegram".to_string(),
            reply_from.to_string(),
            none(),
            application.to_string(),
            if high { "yes" } else { "no" }.to_string(),
        ),
    };
    let (notice, told, address) = match answer.notice {
        Notice::Nothing => (none(), none(), none()),
        Notice::Reply {
            application,
            address,
        } => (
            "reply".to_string(),
            application.to_string(),
            address.to_string(),
        ),
        Notice::Timeout {
            application,
            address,
        } => (
            "timeout".to_string(),
            application.to_string(),
            address.to_string(),
        ),
    };
    let bytes = match answer.sent.length() {
        0 => none(),
        length => length.to_string(),
    };
    [
        line.number.to_string(),
        line.clock.map_or(none(), |clock| clock.to_string()),
        line.came.clone(),
        format!("{:?}", line.before),
        format!("{:?}", answer.state),
        format!("{:?}", answer.outcome),
        answer
            .refusal
            .map_or(none(), |refusal| refusal.number().to_string()),
        sent,
        to,
        kind,
        application,
        high,
        bytes,
        answer.consumed.to_string(),
        notice,
        told,
        address,
        match answer.next_station {
            NextStation::Nobody => none(),
            NextStation::Station(address) => address.to_string(),
        },
        line.did.clone(),
    ]
}
