//! Document 02, P12: several loggers on one simulated bus. A setup as bytes and as a text that a person writes; the calls are
//! there where the static library is linked (see `build.rs`).
//!
//! A setup's text has a line for the tick, one for the number of ticks and one for each station. A word after `#` and an empty
//! line say nothing.
//!
//! ```text
//! # two loggers, 500 kbaud
//! tick 100
//! ticks 120
//! station 2 gap 1
//! station 3 slot 300 gap 1
//! ```

use crate::trace::{Header, BAUD_RATES, HEADER_LENGTH};
use std::fmt;

/// The bytes of a setup before its stations.
pub const HEAD_LENGTH: usize = 9;
/// The bytes of each station.
pub const STATION_LENGTH: usize = 14;
/// The bytes of a trace before its records: the header and online.
pub const TRACE_BEGIN: usize = HEADER_LENGTH + 1;
/// The bytes of an entry with eight telegrams, the longest that a simulated station is given.
pub const LONGEST_ENTRY: usize = 1 + 8 + 6 + 4 * 8;

/// The least slot bits of each baud code, which new settings have.
const LEAST_SLOT: [u16; 11] = [100, 100, 100, 100, 100, 100, 200, 300, 400, 600, 1000];

/// A simulation's setup, each field as given. Whether it is accepted is the proved call's matter.
#[derive(Debug, Clone, PartialEq, Eq)]
pub struct Setup {
    /// The time between two ticks in microseconds.
    pub tick: u32,
    pub ticks: u32,
    /// In the order given. Each has one application, whatever its header says.
    pub stations: Vec<Header>,
}

impl Setup {
    /// The setup's bytes.
    ///
    /// ```
    /// use amsulfezd::simulation::Setup;
    /// use amsulfezd::trace::Header;
    ///
    /// let setup = Setup { tick: 100, ticks: 60, stations: vec![Header::new(2, 6, 1), Header::new(5, 6, 1)] };
    /// let bytes = setup.to_bytes();
    /// assert_eq!(bytes.len(), 9 + 2 * 14);
    /// assert_eq!(bytes[..11], [2, 0, 0, 0, 100, 0, 0, 0, 60, 2, 6]);
    /// ```
    pub fn to_bytes(&self) -> Vec<u8> {
        let mut bytes = vec![u8::try_from(self.stations.len()).unwrap_or(u8::MAX)];
        bytes.extend(self.tick.to_be_bytes());
        bytes.extend(self.ticks.to_be_bytes());
        for station in &self.stations {
            // a header without its applications and its last byte
            let header = station.to_bytes();
            bytes.extend_from_slice(&header[..12]);
            bytes.extend_from_slice(&header[13..15]);
        }
        bytes
    }

    /// The stations by rising address, as the calls count them.
    pub fn by_address(&self) -> Vec<Header> {
        let mut stations = self.stations.clone();
        stations.sort_by_key(|station| station.address);
        stations
    }

    /// How long so many bytes are on the bus, in microseconds, rounded up; 0 without a baud code.
    pub fn time_of(&self, bytes: u8) -> u64 {
        let code = self
            .stations
            .first()
            .map_or(0, |station| usize::from(station.baud));
        BAUD_RATES.get(code).map_or(0, |&rate| {
            let bits = 11 * u64::from(bytes);
            (bits * 1_000_000 + u64::from(rate) - 1) / u64::from(rate)
        })
    }
}

/// A setup's text, read: the setup, and on which line each part stands, counted from 1.
#[derive(Debug, Clone, PartialEq, Eq)]
pub struct SetupText {
    pub setup: Setup,
    pub tick_line: usize,
    pub ticks_line: usize,
    pub station_lines: Vec<usize>,
}

/// A line of a setup's text that is not built as one, or that is lacking.
#[derive(Debug, Clone, PartialEq, Eq)]
pub struct BadLine {
    /// Counted from 1; the line after the last where one is lacking.
    pub line: usize,
    pub why: String,
}

impl fmt::Display for BadLine {
    fn fmt(&self, f: &mut fmt::Formatter) -> fmt::Result {
        write!(f, "line {}: {}", self.line, self.why)
    }
}

impl std::error::Error for BadLine {}

/// What a station's line may say after the address, in words for who wrote another.
const SETTINGS: &str = "baud, slot, rotation, gap, hsa, retry, tsdr or factors";

impl SetupText {
    /// Reads a setup's text. Settings that are left out are those of new settings: baud code 6, the least slot bits of the code,
    /// rotation 32,436, gap wait 10, HSA 126, retry 1, min Tsdr 11, no watchdog.
    ///
    /// ```
    /// use amsulfezd::simulation::SetupText;
    ///
    /// let read = SetupText::read("tick 100\nticks 60 # to 5,900 us\n\nstation 2 gap 1\nstation 5 baud 6 slot 300\n")?;
    /// assert_eq!((read.setup.tick, read.setup.ticks, read.station_lines), (100, 60, vec![4, 5]));
    /// assert_eq!((read.setup.stations[0].gap_wait, read.setup.stations[1].slot_bits), (1, 300));
    /// let bad = SetupText::read("tick 100\nticks 60\nstation 2 sloot 300\n").unwrap_err();
    /// assert_eq!(bad.to_string(), "line 3: 'sloot' is none of baud, slot, rotation, gap, hsa, retry, tsdr or factors");
    /// # Ok::<(), amsulfezd::simulation::BadLine>(())
    /// ```
    pub fn read(text: &str) -> Result<SetupText, BadLine> {
        let (mut tick, mut ticks) = (None, None);
        let (mut stations, mut station_lines) = (Vec::new(), Vec::new());
        let mut after = 1;
        for (number, line) in text.lines().enumerate() {
            let bad = |why: String| BadLine {
                line: number + 1,
                why,
            };
            after = number + 2;
            let said = line.split('#').next().unwrap_or("");
            let words: Vec<&str> = said.split_whitespace().collect();
            match words[..] {
                [] => (),
                ["tick" | "ticks", value] => {
                    let place = if words[0] == "tick" {
                        &mut tick
                    } else {
                        &mut ticks
                    };
                    let value = number_of(words[0], value, u32::MAX).map_err(bad)?;
                    if place.replace((value, number + 1)).is_some() {
                        return Err(bad(format!("a second line says {}", words[0])));
                    }
                }
                ["tick" | "ticks", ..] => {
                    return Err(bad(format!("after {} stands one number", words[0])))
                }
                ["station", address, ref rest @ ..] => {
                    stations.push(station_of(address, rest).map_err(bad)?);
                    station_lines.push(number + 1);
                }
                ["station"] => return Err(bad("after station stands its address".to_string())),
                [other, ..] => {
                    return Err(bad(format!(
                        "'{}' is none of tick, ticks or station",
                        other
                    )))
                }
            }
        }
        let lacking = |name: &str| BadLine {
            line: after,
            why: format!("the text ends, and no line says {}", name),
        };
        let (tick, tick_line) = tick.ok_or_else(|| lacking("tick"))?;
        let (ticks, ticks_line) = ticks.ok_or_else(|| lacking("ticks"))?;
        let setup = Setup {
            tick,
            ticks,
            stations,
        };
        Ok(SetupText {
            setup,
            tick_line,
            ticks_line,
            station_lines,
        })
    }
}

/// A number of a setup's text, with digits alone and at most this.
fn number_of(name: &str, word: &str, most: u32) -> Result<u32, String> {
    let digits = !word.is_empty() && word.bytes().all(|byte| byte.is_ascii_digit());
    let number = word.parse::<u32>().ok().filter(|number| *number <= most);
    number.filter(|_| digits).ok_or_else(|| {
        format!(
            "{} is a whole number of at most {}, not '{}'",
            name, most, word
        )
    })
}

/// A station's settings by the words of its line.
fn station_of(address: &str, words: &[&str]) -> Result<Header, String> {
    let byte = |name: &str, word: &str| -> Result<u8, String> {
        Ok(number_of(name, word, u8::MAX.into())? as u8)
    };
    let mut station = Header::new(byte("the address", address)?, 6, 1);
    let (mut slot, mut said, mut rest) = (None, Vec::new(), words);
    while let [name, after @ ..] = rest {
        let known = [
            "baud", "slot", "rotation", "gap", "hsa", "retry", "tsdr", "factors",
        ];
        if !known.contains(name) {
            return Err(format!("'{}' is none of {}", name, SETTINGS));
        }
        if said.contains(name) {
            return Err(format!("{} stands twice", name));
        }
        said.push(*name);
        let (value, after) = after
            .split_first()
            .ok_or_else(|| format!("after {} stands a number", name))?;
        rest = after;
        match *name {
            "baud" => station.baud = byte(name, value)?,
            "slot" => slot = Some(number_of(name, value, u16::MAX.into())? as u16),
            "rotation" => station.rotation_bits = number_of(name, value, u32::MAX)?,
            "gap" => station.gap_wait = byte(name, value)?,
            "hsa" => station.hsa = byte(name, value)?,
            "retry" => station.retry = byte(name, value)?,
            "tsdr" => station.min_tsdr = byte(name, value)?,
            _ => {
                let (second, after) = after
                    .split_first()
                    .ok_or_else(|| "after factors stand two numbers".to_string())?;
                station.watchdog_factors = (byte(name, value)?, byte(name, second)?);
                rest = after;
            }
        }
    }
    let least = LEAST_SLOT.get(usize::from(station.baud)).copied();
    station.slot_bits = slot.or(least).unwrap_or(200);
    Ok(station)
}

#[cfg(linked)]
pub use linked::{simulate, simulate_whole, simulated_trace, simulated_trace_whole};

#[cfg(linked)]
mod linked {
    use super::{LONGEST_ENTRY, TRACE_BEGIN};
    use crate::answer::{Answer, ANSWER_LENGTH};
    use crate::refusal::Refusal;

    extern "C" {
        /// The proved calls as `hosts/c/amsulfezd.h` documents them.
        fn amsulfezd_simulate(
            setup: *const u8,
            setup_len: usize,
            report: *mut u8,
            report_len: usize,
        ) -> u64;
        fn amsulfezd_simulated_trace(
            setup: *const u8,
            setup_len: usize,
            station: u8,
            trace: *mut u8,
            trace_len: usize,
        ) -> u64;
    }

    /// What a call returned, taken apart: what was done × 256 + the refusal's number.
    fn taken_apart(returned: u64) -> Result<usize, Refusal> {
        match (returned % 256) as u8 {
            0 => Ok((returned / 256) as usize),
            number => Err(Refusal::try_from(number)
                .expect("the calls are proved to return one of their numbers")),
        }
    }

    /// Simulates a setup and writes the report: 8 bytes an answer, tick by tick, within a tick by rising address. Gives the
    /// ticks. Refused, nothing is written.
    ///
    /// ```
    /// use amsulfezd::refusal::Refusal;
    /// use amsulfezd::simulation::{simulate, Setup};
    /// use amsulfezd::trace::Header;
    ///
    /// let mut setup = Setup { tick: 2000, ticks: 3, stations: vec![Header::new(5, 6, 1), Header::new(2, 6, 1)] };
    /// let mut report = [0; 8 * 2 * 3];
    /// assert_eq!(simulate(&setup.to_bytes(), &mut report), Ok(3));
    /// // at 4,000 us station 2 claims the token
    /// assert_eq!(report[32..40], [0x02, 0x42, 0x08, 0x00, 0x30, 0x00, 0x01, 0xfc]);
    /// setup.tick = 0;
    /// assert_eq!(simulate(&setup.to_bytes(), &mut report), Err(Refusal::Tick));
    /// ```
    pub fn simulate(setup: &[u8], report: &mut [u8]) -> Result<usize, Refusal> {
        // SAFETY: both pointers come from slices and are valid for the lengths given; as `report` is borrowed mutably the two do
        // not overlap. The library keeps neither, and it is proved to stay inside them and to return.
        let returned = unsafe {
            amsulfezd_simulate(
                setup.as_ptr(),
                setup.len(),
                report.as_mut_ptr(),
                report.len(),
            )
        };
        taken_apart(returned)
    }

    /// The stations and the ticks that a setup's bytes name, if its head is there and they can be run: the room that is made for a
    /// setup that is refused need not be large.
    fn asked_for(setup: &[u8]) -> (usize, usize) {
        match *setup {
            [stations @ 2..=8, _, _, _, _, a, b, c, d, ..] => {
                let ticks = u32::from_be_bytes([a, b, c, d]);
                (usize::from(stations), ticks.min(1_000_000) as usize)
            }
            _ => (0, 0),
        }
    }

    /// Simulates with room for the report; gives the answers, tick by tick, within a tick by rising address.
    pub fn simulate_whole(setup: &[u8]) -> Result<Vec<Answer>, Refusal> {
        let (stations, ticks) = asked_for(setup);
        let mut report = vec![0; ANSWER_LENGTH * stations * ticks];
        simulate(setup, &mut report)?;
        let answers = report.chunks(ANSWER_LENGTH).map(|bytes| {
            let bytes: [u8; ANSWER_LENGTH] = bytes.try_into().expect("8 bytes");
            Answer::try_from(u64::from_be_bytes(bytes))
                .expect("the call is proved to write answers")
        });
        Ok(answers.collect())
    }

    /// Simulates a setup for one station and writes its trace: its header, online, and the record of each tick. `station` is its
    /// place by rising address, from 0. Gives the bytes written. Refused, nothing is written.
    pub fn simulated_trace(setup: &[u8], station: u8, trace: &mut [u8]) -> Result<usize, Refusal> {
        // SAFETY: as for `simulate`.
        let returned = unsafe {
            amsulfezd_simulated_trace(
                setup.as_ptr(),
                setup.len(),
                station,
                trace.as_mut_ptr(),
                trace.len(),
            )
        };
        taken_apart(returned)
    }

    /// Simulates with room for the trace.
    pub fn simulated_trace_whole(setup: &[u8], station: u8) -> Result<Vec<u8>, Refusal> {
        let mut trace = vec![0; TRACE_BEGIN + LONGEST_ENTRY * asked_for(setup).1];
        let written = simulated_trace(setup, station, &mut trace)?;
        trace.truncate(written);
        Ok(trace)
    }
}

#[cfg(test)]
mod tests {
    use super::*;

    #[test]
    fn what_is_left_out_is_the_default() {
        let read = SetupText::read("station 7\nticks 3\n  tick 1000000\nstation 0 baud 10 factors 4 250 tsdr 20 retry 3 hsa 9 rotation 70000").expect("a setup");
        assert_eq!((read.tick_line, read.ticks_line), (3, 2));
        assert_eq!(read.station_lines, [1, 4]);
        assert_eq!(read.setup.stations.len(), 2);
        let (first, second) = (read.setup.stations[0], read.setup.stations[1]);
        assert_eq!(first, Header::new(7, 6, 1));
        let stated = Header {
            slot_bits: 1000,
            rotation_bits: 70_000,
            hsa: 9,
            retry: 3,
            min_tsdr: 20,
            watchdog_factors: (4, 250),
            ..Header::new(0, 10, 1)
        };
        assert_eq!(second, stated);
        assert_eq!(read.setup.by_address(), [second, first]);
    }

    #[test]
    fn bad_lines() {
        for (text, said) in [
            ("", "line 1: the text ends, and no line says tick"),
            ("tick 5\n", "line 2: the text ends, and no line says ticks"),
            ("tick\n", "line 1: after tick stands one number"),
            ("tick 5 6\n", "line 1: after tick stands one number"),
            ("tick 5\ntick 5\n", "line 2: a second line says tick"),
            (
                "ticks -1\n",
                "line 1: ticks is a whole number of at most 4294967295, not '-1'",
            ),
            (
                "ticks 4294967296\n",
                "line 1: ticks is a whole number of at most 4294967295, not '4294967296'",
            ),
            (
                "\n#x\nstation\n",
                "line 3: after station stands its address",
            ),
            (
                "station 256\n",
                "line 1: the address is a whole number of at most 255, not '256'",
            ),
            ("station 5 slot\n", "line 1: after slot stands a number"),
            (
                "station 5 slot 65536\n",
                "line 1: slot is a whole number of at most 65535, not '65536'",
            ),
            ("station 5 gap 1 gap 2\n", "line 1: gap stands twice"),
            (
                "station 5 factors 1\n",
                "line 1: after factors stand two numbers",
            ),
            (
                "stations 5\n",
                "line 1: 'stations' is none of tick, ticks or station",
            ),
        ] {
            let bad = SetupText::read(text).expect_err(text);
            assert_eq!(bad.to_string(), said);
        }
    }

    #[test]
    fn times_are_rounded_up() {
        for (baud, token) in [(0, 3438), (6, 66), (10, 3), (11, 0)] {
            let setup = Setup {
                tick: 1,
                ticks: 1,
                stations: vec![Header::new(5, baud, 1)],
            };
            assert_eq!(setup.time_of(3), token);
        }
    }
}
