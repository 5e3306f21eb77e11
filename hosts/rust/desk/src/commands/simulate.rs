//! `amsulfezd simulate`: several loggers on one simulated bus, by a setup that a person wrote.

use super::examples;
use crate::failure::Failure;
use crate::input::{self, Input};
use crate::{output, progress};
use amsulfezd::refusal::Refusal;
use amsulfezd::replay::other_edition;
use amsulfezd::simulation::{simulate_whole, simulated_trace_whole, SetupText};
use amsulfezd::trace::HEADER_LENGTH;
use amsulfezd_tools::bus::Bus;
use amsulfezd_tools::picture::bus::bus_picture;
use clap::{value_parser, Arg, ArgMatches, Command};
use std::path::Path;

pub fn command(command: Command) -> Command {
    let clock = |name: &'static str, help: &'static str| {
        Arg::new(name)
            .long(name)
            .value_name("US")
            .value_parser(value_parser!(u64))
            .help(help)
    };
    command
        .about("Runs 2 to 8 loggers on one simulated bus: who got the token when, a trace of each, a picture of the bus")
        .long_about(
            "Runs 2 to 8 loggers on one simulated bus and prints who got the token when and which telegrams were lost. With -o it \
             also writes, into that folder, each station's trace, which all other commands take, and a picture of the whole bus.\n\n\
             A setup is a text: a line 'tick N' with the time between two polls in microseconds, a line 'ticks N', and for each \
             logger a line 'station ADDRESS' with any of 'baud', 'slot', 'rotation', 'gap', 'hsa', 'retry', 'tsdr' and a number, or \
             'factors' and two numbers. What is left out is the default. A word after # says nothing. A refused setup is named with \
             its line, and nothing is written.",
        )
        .arg(input::file("A setup's text"))
        .arg(
            Arg::new("OUT")
                .short('o')
                .long("output")
                .value_name("FOLDER")
                .help("writes station-N.trace for each address N, and bus.svg, into this folder"),
        )
        .arg(clock("from", "the picture begins with this clock, in microseconds"))
        .arg(clock("to", "the picture ends with this clock"))
        .after_help(examples(&[
            "amsulfezd simulate traces/simulations/two-loggers.setup",
            "amsulfezd simulate traces/simulations/bad-slot-time.setup -o bench",
        ]))
}

pub fn run(words: &ArgMatches) -> Result<(), Failure> {
    let (from, to) = (words.get_one::<u64>("from"), words.get_one::<u64>("to"));
    let clocks = from.copied().unwrap_or(0)..=to.copied().unwrap_or(u64::MAX);
    if clocks.is_empty() {
        return Err(Failure::Usage(format!(
            "--from {} is after --to {}",
            clocks.start(),
            clocks.end()
        )));
    }
    let folder = words.get_one::<String>("OUT").map(Path::new);
    if folder.is_none() && (from.is_some() || to.is_some()) {
        return Err(Failure::Usage(
            "--from and --to are of the picture, which -o writes".to_string(),
        ));
    }
    let input = input::read(words)?;
    let refused = |why: String| Failure::Refused(format!("{}, {}", input.name, why));
    let text = std::str::from_utf8(&input.bytes)
        .map_err(|error| refused(format!("byte {}: this is no text", error.valid_up_to() + 1)))?;
    let read = SetupText::read(text).map_err(|bad| refused(bad.to_string()))?;
    let setup = read.setup.to_bytes();
    let stations = read.setup.stations.len();
    if stations > usize::from(u8::MAX) {
        return Err(at_line(&input, &read, Refusal::Stations));
    }
    // the whole run once, and once for each trace
    let steps = if folder.is_some() { 1 + stations } else { 1 };
    let made = progress::during("simulating", steps as u64, |bar| {
        let report = simulate_whole(&setup)?;
        bar.inc(1);
        let mut traces = Vec::new();
        for place in 0..steps as u8 - 1 {
            traces.push(simulated_trace_whole(&setup, place)?);
            bar.inc(1);
        }
        Ok((report, traces))
    });
    let (report, traces) = made.map_err(|refusal| at_line(&input, &read, refusal))?;
    let bus = Bus::of(&read.setup, &report);
    let mut said = bus.words();
    if let Some(folder) = folder {
        std::fs::create_dir_all(folder)
            .map_err(|error| Failure::of_file(&folder.display().to_string(), error))?;
        said.push('\n');
        let mut files: Vec<(String, Vec<u8>)> = Vec::new();
        for (station, trace) in bus.stations.iter().zip(traces) {
            files.push((format!("station-{}.trace", station.address), trace));
        }
        let picture = bus_picture(&bus, &input.title(), clocks);
        files.push(("bus.svg".to_string(), picture.into_bytes()));
        for (name, content) in files {
            let path = folder.join(name);
            output::file(&path, Some(&input), &content)?;
            said.push_str(&format!("{}\n", path.display()));
        }
    }
    output::print(said.as_bytes())
}

/// A refusal of the setup, with the line that it is of; a number of stations is of the text's last line.
fn at_line(input: &Input, read: &SetupText, refusal: Refusal) -> Failure {
    let stations = read.setup.stations.iter().zip(&read.station_lines);
    let line = match refusal {
        Refusal::Tick => Some(read.tick_line),
        Refusal::Ticks => Some(read.ticks_line),
        Refusal::BaudCodes => {
            let first = read.setup.stations.first().map(|station| station.baud);
            let other = |baud: u8| Some(baud) != first;
            stations
                .clone()
                .find(|(station, _)| other(station.baud))
                .map(|(_, line)| *line)
        }
        Refusal::EqualAddresses => {
            let mut seen = Vec::new();
            let again = |address: u8| {
                let again = seen.contains(&address);
                seen.push(address);
                again
            };
            let mut again = again;
            stations
                .clone()
                .find(|(station, _)| again(station.address))
                .map(|(_, line)| *line)
        }
        Refusal::Stations | Refusal::Cut | Refusal::NoRoom => None,
        // the first station whose settings the proved call refuses as those of a header; an address is none of edition 2's bytes
        _ => stations
            .clone()
            .find(|(station, _)| {
                station.address > 125
                    || other_edition(&station.to_bytes(), &mut [0; HEADER_LENGTH]).is_err()
            })
            .map(|(_, line)| *line),
    };
    let count = read.setup.stations.len();
    let place = match line {
        Some(line) => format!("{}, line {}", input.name, line),
        None => format!("{}, {} stations", input.name, count),
    };
    Failure::refusal(&place, refusal)
}
