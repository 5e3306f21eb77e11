//! The settings of a header as options, with the defaults of the source (docs/FORMAT.md, section 9).

use crate::failure::Failure;
use amsulfezd::replay::other_edition;
use amsulfezd::trace::{Edition, Header, HEADER_LENGTH};
use clap::{value_parser, Arg, ArgMatches};

/// The least slot bits of each baud code.
const LEAST_SLOT: [u16; 11] = [100, 100, 100, 100, 100, 100, 200, 300, 400, 600, 1000];

/// The options.
pub fn options() -> Vec<Arg> {
    let byte = |name: &'static str, long: &'static str, usual: &'static str, help: &'static str| {
        Arg::new(name)
            .long(long)
            .value_name("N")
            .default_value(usual)
            .value_parser(value_parser!(u8))
            .help(help)
    };
    let wide = |name: &'static str, long: &'static str, help: &'static str| {
        Arg::new(name).long(long).value_name("N").help(help)
    };
    vec![
        byte("ADDRESS", "address", "5", "the station's address, 0 to 125"),
        byte(
            "BAUD",
            "baud",
            "6",
            "the baud code, 0 to 10; 6 is 500,000 bits a second",
        ),
        wide(
            "SLOT",
            "slot",
            "the slot time in bits; without it the least of the baud code",
        )
        .value_parser(value_parser!(u16)),
        wide("ROTATION", "rotation", "the token rotation time in bits")
            .default_value("32436")
            .value_parser(value_parser!(u32)),
        byte(
            "GAP",
            "gap",
            "10",
            "rotations between two gap polls, 1 to 100",
        ),
        byte(
            "HSA",
            "hsa",
            "126",
            "the highest station address, above the address, at most 126",
        ),
        byte("RETRY", "retry", "1", "retries, 1 to 15"),
        byte(
            "TSDR",
            "tsdr",
            "11",
            "the least station delay in bits, 11 to 255",
        ),
        Arg::new("EDITION")
            .long("edition")
            .value_name("N")
            .default_value("1")
            .value_parser(["1", "2"])
            .help("the edition of the header: 16 bytes or 14"),
    ]
}

/// The names of the settings that the words themselves give.
pub fn given(words: &ArgMatches) -> Vec<&'static str> {
    let said = |name: &&'static str| {
        words.value_source(name) == Some(clap::parser::ValueSource::CommandLine)
    };
    [
        "ADDRESS", "BAUD", "SLOT", "ROTATION", "GAP", "HSA", "RETRY", "TSDR", "EDITION",
    ]
    .into_iter()
    .filter(said)
    .collect()
}

/// The header that the words ask for, with this many applications, and its edition. Whether it is accepted is not asked here.
pub fn header(words: &ArgMatches, applications: u8) -> (Header, Edition) {
    let byte = |name: &str| *words.get_one::<u8>(name).expect("it has a default");
    let baud = byte("BAUD");
    let least = LEAST_SLOT.get(usize::from(baud)).copied().unwrap_or(200);
    let header = Header {
        address: byte("ADDRESS"),
        baud,
        slot_bits: words.get_one::<u16>("SLOT").copied().unwrap_or(least),
        rotation_bits: *words.get_one::<u32>("ROTATION").expect("it has a default"),
        gap_wait: byte("GAP"),
        hsa: byte("HSA"),
        retry: byte("RETRY"),
        min_tsdr: byte("TSDR"),
        applications,
        watchdog_factors: (0, 0),
        zero: 0,
    };
    let edition = match words.get_one::<String>("EDITION").map(String::as_str) {
        Some("2") => Edition::Second,
        _ => Edition::First,
    };
    (header, edition)
}

/// The bytes of a header in an edition, as the proved call has them: it refuses what a trace is refused for.
pub fn accepted(header: &Header, edition: Edition) -> Result<Vec<u8>, Failure> {
    let first = header.to_bytes();
    let mut second = [0; HEADER_LENGTH];
    match other_edition(&first, &mut second) {
        Err(refusal) => Err(Failure::refusal("the settings", refusal)),
        Ok(_) if edition == Edition::First => Ok(first.to_vec()),
        Ok(length) => Ok(second[..length].to_vec()),
    }
}
