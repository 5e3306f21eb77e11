//! `amsulfezd settings`: the rules that settings have to meet, and whether these do.

use super::examples;
use crate::{failure::Failure, output, settings};
use amsulfezd::trace::{Edition, BAUD_RATES};
use amsulfezd::words::thousands;
use clap::{ArgMatches, Command};

pub fn command(command: Command) -> Command {
    command
        .about("The rule that each setting has to meet, the times that it makes, and whether the proved library accepts them")
        .args(settings::options())
        .arg(output::option())
        .after_help(examples(&["amsulfezd settings --address 5 --baud 6 --slot 200"]))
}

pub fn run(words: &ArgMatches) -> Result<(), Failure> {
    let (header, edition) = settings::header(words, 1);
    let time = |bits: u64| match BAUD_RATES.get(usize::from(header.baud)) {
        Some(&rate) => format!(
            " ({} us)",
            thousands((bits * 1_000_000 + u64::from(rate) - 1) / u64::from(rate))
        ),
        None => String::new(),
    };
    let rate = BAUD_RATES
        .get(usize::from(header.baud))
        .map_or(String::new(), |&rate| {
            format!(" ({} bits a second)", thousands(u64::from(rate)))
        });
    let rows = [
        ("address", header.address.to_string(), "0 to 125; else 1"),
        (
            "baud code",
            format!("{}{}", header.baud, rate),
            "0 to 10; else 10",
        ),
        (
            "slot bits",
            format!("{}{}", header.slot_bits, time(u64::from(header.slot_bits))),
            "at least 100 for baud codes 0 to 5, then 200, 300, 400, 600, 1000; else 2",
        ),
        (
            "rotation bits",
            format!(
                "{}{}",
                thousands(u64::from(header.rotation_bits)),
                time(u64::from(header.rotation_bits))
            ),
            "256 to 16,777,960; else 4. At least slot bits + 100, the room for a gap poll; else 25",
        ),
        (
            "gap wait",
            header.gap_wait.to_string(),
            "1 to 100 rotations; else 5",
        ),
        (
            "HSA",
            header.hsa.to_string(),
            "above the address, at most 126; else 3",
        ),
        ("retry", header.retry.to_string(), "1 to 15; else 6"),
        (
            "min Tsdr",
            header.min_tsdr.to_string(),
            "11 to 255 bits; else 7",
        ),
    ];
    let width = rows
        .iter()
        .map(|(_, value, _)| value.len())
        .max()
        .unwrap_or(0);
    let mut text = String::new();
    for (name, value, rule) in &rows {
        text.push_str(&format!(
            "{:<13}  {:<width$}  {}\n",
            name,
            value,
            rule,
            width = width
        ));
    }
    let answer = settings::accepted(&header, edition);
    if let Ok(bytes) = &answer {
        let digits: String = bytes.iter().map(|byte| format!("{:02x}", byte)).collect();
        let number = if edition == Edition::First { 1 } else { 2 };
        text.push_str(&format!(
            "\nThey are accepted. A header of edition {} with one application: {}\n",
            number, digits
        ));
    }
    output::text(words, None, &text)?;
    answer.map(|_| ())
}
