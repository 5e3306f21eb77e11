//! Who was heard, and when, as a table: printed from the entries that the proved call gave. Nothing is counted here.

use crate::explain::{check_run, ending, thousands, NotThisTrace};
use amsulfezd::heard::Heard;
use amsulfezd::run::Run;
use amsulfezd::trace::{Edition, Header};
use amsulfezd::words::{counted, settings};

/// The settings, a line for each address that was heard, and how the run ended.
pub fn heard(trace: &[u8], heard: &[(u8, Heard)], run: &Run) -> Result<String, NotThisTrace> {
    check_run(trace, run)?;
    let header = Header::from_bytes(trace);
    let heading = header.map_or(String::new(), |header| {
        format!("{}\n\n", settings(&header, Edition::of(trace)))
    });
    let rows = rows(header.map(|header| header.address), heard);
    Ok(format!(
        "{}{}{}\n",
        heading,
        aligned(&rows),
        ending(run, trace)
    ))
}

/// The heading of the table and its rows, cell by cell.
fn rows(own: Option<u8>, heard: &[(u8, Heard)]) -> Vec<[String; 5]> {
    let heading = [
        "address",
        "times",
        "first heard",
        "last heard",
        "last response",
    ];
    let mut rows = vec![heading.map(str::to_string)];
    for (address, entry) in heard {
        rows.push([
            match own {
                Some(own) if own == *address => format!("own {}", address),
                _ => address.to_string(),
            },
            thousands(u64::from(entry.times)),
            format!("{} us", thousands(entry.first)),
            format!("{} us", thousands(entry.last)),
            type_words(entry),
        ]);
    }
    rows
}

/// The rows with their cells under each other; words that nobody was heard where there are none.
fn aligned(rows: &[[String; 5]]) -> String {
    if rows.len() == 1 {
        return "Nobody was heard.\n\n".to_string();
    }
    let width = |place: usize| rows.iter().map(|row| row[place].len()).max().unwrap_or(0);
    let widths = [width(0), width(1), width(2), width(3)];
    let mut text = String::new();
    for row in rows {
        for (cell, width) in row.iter().zip(widths) {
            text.push_str(&format!("{:>width$}  ", cell, width = width));
        }
        text.push_str(&format!("{}\n", row[4]));
    }
    text.push('\n');
    text
}

/// The type of the last response.
fn type_words(entry: &Heard) -> String {
    match entry.station_type {
        Some(kind) => kind.to_string(),
        None => "none seen".to_string(),
    }
}

/// The same on one line for each address, for the margin of a picture.
pub fn sentences(heard: &[(u8, Heard)]) -> Vec<String> {
    let sentence = |(address, entry): &(u8, Heard)| {
        format!(
            "{} was heard {}: first at {} us, last at {} us; last response: {}",
            address,
            counted(entry.times as usize, "time"),
            thousands(entry.first),
            thousands(entry.last),
            type_words(entry)
        )
    };
    if heard.is_empty() {
        return vec!["Nobody was heard.".to_string()];
    }
    heard.iter().map(sentence).collect()
}
