//! The cases that the calls have to reach, by name: each start byte, each kind of telegram, each function code and length,
//! each refusal of the reader and the writer, and which of two faults decides.

use super::frame::{check_byte, END, LENGTHS, SC, SD1, SD2, SD3, SD4, STATUS_REQUEST};
use super::tries::Try;
use crate::comparison::calls::{Made, Meets};
use crate::coverage::Point::{self, Numbered, Said};
use crate::coverage::{stray_points, Points, Tally};
use crate::records::{split, Telegram, TELEGRAM};
use std::collections::HashMap;

const READ: &str = "frame read";
const TELEGRAM_READ: &str = "telegram read";
const CODE_READ: &str = "function code read";
const LENGTH_READ: &str = "length of SD2 read";
const ADDRESS_READ: &str = "address read";
const REFUSED: &str = "frame refused";
const START_REFUSED: &str = "start byte refused";
const LENGTH_REFUSED: &str = "length of SD2 refused";
const CUT: &str = "frame cut after so many bytes";
const TWO_FAULTS: &str = "frame with two faults";
const WRITTEN: &str = "word written";
const RESPONSE_WRITTEN: &str = "function code written";
const WORD_REFUSED: &str = "word refused";
const BAD_WORD: &str = "bad word";

/// The frames with a check byte.
const CHECKED: [&str; 3] = ["SD1", "SD2", "SD3"];

/// What has been met, and how many calls of each sort were made.
#[derive(Default)]
pub struct Met {
    tally: Tally,
    stray: HashMap<String, u64>,
}

/// The start bytes with their names.
pub(crate) const STARTS: [(u8, &str); 5] = [(SD1, "SD1"), (SD2, "SD2"), (SD3, "SD3"), (SD4, "SD4"), (SC, "SC")];

/// The name of a start byte.
pub(crate) fn name_of(start: u8) -> Option<&'static str> {
    STARTS.iter().find(|(byte, _)| *byte == start).map(|(_, name)| *name)
}

/// One of three things, by the start byte's name.
fn by_name(name: &str, words: [&'static str; 3]) -> Point {
    Said(words[CHECKED.iter().position(|checked| *checked == name).expect("a frame with a check byte")])
}

/// The faults of a frame that is there whole: check byte, end byte, extension bits, top bit of the function code.
fn faults(frame: &[u8], body: std::ops::Range<usize>, checked: bool) -> Vec<u8> {
    let (end, body) = (body.end, &frame[body]);
    let found = [
        (22, checked && frame[end] != check_byte(body)),
        (23, checked && frame[end + 1] != END),
        (24, body[0] > 127 || body[1] > 127),
        (34, checked && body[2] > 127),
    ];
    found.into_iter().filter(|(_, there)| *there).map(|(number, _)| number).collect()
}

impl Met {
    fn hit(&mut self, group: &'static str, point: Point) {
        self.tally.hit(group, point);
    }

    fn see_frame(&mut self, frame: &[u8], returned: u64) {
        let start = match frame.first() {
            None => return self.hit(REFUSED, Said("19: empty")),
            Some(start) => *start,
        };
        let name = match name_of(start) {
            None => {
                self.hit(REFUSED, Said("20: start byte"));
                return self.hit(START_REFUSED, Numbered("byte", start.into()));
            }
            Some(name) => name,
        };
        let length = frame.get(1).map_or(0, |byte| usize::from(*byte));
        if start == SD2 {
            let differ = frame.get(2).map_or(false, |byte| usize::from(*byte) != length);
            let outside = !LENGTHS.contains(&length);
            if frame.len() < 4 {
                self.hit(REFUSED, Numbered("19: header of SD2, bytes", frame.len()));
                if frame.len() >= 2 && (outside || differ) {
                    self.hit(TWO_FAULTS, Said("19 before 21"));
                }
                return;
            }
            if differ || outside || frame[3] != SD2 {
                if !outside && frame[3] == SD2 {
                    self.hit(REFUSED, Said("21: the lengths differ"));
                } else if !differ && !outside {
                    self.hit(REFUSED, Said("21: another fourth byte"));
                } else if !differ && frame[3] == SD2 {
                    self.hit(LENGTH_REFUSED, Numbered("length", length));
                }
                if frame.len() < length + 6 {
                    self.hit(TWO_FAULTS, Said("21 before 19"));
                }
                return;
            }
        }
        let body = match start {
            SC => 1..1,
            SD4 => 1..3,
            SD1 => 1..4,
            SD3 => 1..12,
            _ => 4..4 + length,
        };
        let checked = CHECKED.contains(&name);
        let used = body.end + if checked { 2 } else { 0 };
        if frame.len() < used {
            if checked && frame.len() + 1 == used && frame[used - 2] != check_byte(&frame[body]) {
                self.hit(TWO_FAULTS, Said("19 before 22"));
            }
            if start == SD2 {
                self.hit(REFUSED, Said("19: SD2 cut short"));
            }
            return self.hit(CUT, Numbered(name, frame.len()));
        }
        if start != SC {
            let found = faults(frame, body.clone(), checked);
            if let [first, second, ..] = *found.as_slice() {
                let both = match (first, second) {
                    (22, 23) => "22 before 23",
                    (22, 24) => "22 before 24",
                    (22, 34) => "22 before 34",
                    (23, 24) => "23 before 24",
                    (23, 34) => "23 before 34",
                    _ => "24 before 34",
                };
                self.hit(TWO_FAULTS, Said(both));
            }
            match found.first() {
                Some(22) => return self.hit(REFUSED, by_name(name, ["22: SD1", "22: SD2", "22: SD3"])),
                Some(23) => return self.hit(REFUSED, by_name(name, ["23: SD1", "23: SD2", "23: SD3"])),
                Some(24) => {
                    let whose = match (frame[body.start] > 127, frame[body.start + 1] > 127) {
                        (true, false) => "24: destination, start byte",
                        (false, true) => "24: source, start byte",
                        _ => "24: both, start byte",
                    };
                    return self.hit(REFUSED, Numbered(whose, start.into()));
                }
                Some(_) => return self.hit(REFUSED, by_name(name, ["34: SD1", "34: SD2", "34: SD3"])),
                None => {}
            }
            let (first, second) = if start == SD4 { ("token to", "token from") } else { ("to", "from") };
            self.hit(ADDRESS_READ, Numbered(first, frame[body.start].into()));
            self.hit(ADDRESS_READ, Numbered(second, frame[body.start + 1].into()));
        }
        self.hit(
            READ,
            if frame.len() == used { Said(name) } else { Numbered("with bytes after it: start byte", start.into()) },
        );
        if returned / 256 % 256 != used as u64 {
            self.hit(READ, Said("with another number of bytes"));
        }
        if start == SD2 {
            self.hit(LENGTH_READ, Numbered("length", length));
        }
        let telegram = match start {
            SC => Said("short confirmation"),
            SD4 => Said("token"),
            _ => {
                let code = frame[body.start + 2];
                self.hit(CODE_READ, Numbered(name, code.into()));
                match code {
                    STATUS_REQUEST => by_name(name, ["status request", "49h in SD2", "49h in SD3"]),
                    0x40..=0x7f => by_name(name, ["other request", "request in SD2", "request in SD3"]),
                    _ => by_name(name, ["response", "response in SD2", "response in SD3"]),
                }
            }
        };
        self.hit(TELEGRAM_READ, telegram);
    }

    fn see_word(&mut self, word: u32, room: usize, returned: u64) {
        let bytes = word.to_be_bytes();
        let [kind, _, _, status_request, station_type, status, _] = split(TELEGRAM, &bytes);
        if Telegram::decode(&bytes).is_none() {
            if let Some(point) = crate::coverage::stray_point(&bytes) {
                *self.stray.entry(point).or_insert(0) += 1;
            }
            if room == 0 {
                self.hit(WORD_REFUSED, Said("14 before 18"));
            }
            if kind == 2 && status_request == 0 {
                self.hit(WORD_REFUSED, Said("14 before 34"));
            }
            return;
        }
        let (name, length) = match kind {
            0 => ("token", 3),
            1 => ("short confirmation", 1),
            2 if status_request == 1 => ("status request", 6),
            2 => {
                let before = if room < 6 { "34 before 18" } else { "34" };
                return self.hit(WORD_REFUSED, Said(before));
            }
            _ => ("response", 6),
        };
        if room < length {
            return self.hit(WORD_REFUSED, Numbered(name, room));
        }
        let written = if returned == 256 * length as u64 { name } else { "another number of bytes" };
        self.hit(WRITTEN, if room == length { Said(written) } else { Numbered(written, room.min(9)) });
        if kind == 3 {
            self.hit(RESPONSE_WRITTEN, Numbered("code", (16 * station_type + status) as usize));
        }
    }
}

impl Meets<Try> for Met {
    fn see(&mut self, one: &Try, made: &Made) {
        match one {
            Try::Read(frame) => self.see_frame(frame, made.returned),
            Try::Write(word, buffer) => self.see_word(*word, buffer.len(), made.returned),
        }
    }

    fn points(&self) -> Points {
        let mut points = Points::default();
        let starts = STARTS.map(|(byte, _)| usize::from(byte));
        let names = STARTS.map(|(_, name)| Said(name));
        points.group(READ, names.into_iter().chain(starts.map(|s| Numbered("with bytes after it: start byte", s))));
        let telegrams = [
            "token",
            "short confirmation",
            "status request",
            "other request",
            "response",
            "49h in SD2",
            "request in SD2",
            "response in SD2",
            "49h in SD3",
            "request in SD3",
            "response in SD3",
        ];
        points.group(TELEGRAM_READ, telegrams);
        points.group(CODE_READ, CHECKED.into_iter().flat_map(|name| (0..128).map(move |code| Numbered(name, code))));
        points.group(LENGTH_READ, LENGTHS.map(|length| Numbered("length", length)));
        let whose = ["token to", "token from", "to", "from"];
        points.group(ADDRESS_READ, whose.into_iter().flat_map(|words| (0..128).map(move |a| Numbered(words, a))));
        let refused = [
            "19: empty",
            "20: start byte",
            "21: the lengths differ",
            "21: another fourth byte",
            "19: SD2 cut short",
            "22: SD1",
            "22: SD2",
            "22: SD3",
            "23: SD1",
            "23: SD2",
            "23: SD3",
            "34: SD1",
            "34: SD2",
            "34: SD3",
        ];
        let headers = (1..4).map(|count| Numbered("19: header of SD2, bytes", count));
        let extended = ["24: destination, start byte", "24: source, start byte", "24: both, start byte"]
            .into_iter()
            .flat_map(move |words| starts.into_iter().take(4).map(move |start| Numbered(words, start)));
        points.group(REFUSED, refused.into_iter().map(Said).chain(headers).chain(extended));
        let others = (0..=255u8).filter(|byte| name_of(*byte).is_none());
        points.group(START_REFUSED, others.map(|byte| Numbered("byte", byte.into())));
        let outside = (0..256).filter(|length| !LENGTHS.contains(length));
        points.group(LENGTH_REFUSED, outside.map(|length| Numbered("length", length)));
        let cut = [("SD1", 1..6), ("SD2", 4..255), ("SD3", 1..14), ("SD4", 1..3)];
        points.group(CUT, cut.into_iter().flat_map(|(name, counts)| counts.map(move |count| Numbered(name, count))));
        let orders = [
            "19 before 21",
            "21 before 19",
            "19 before 22",
            "22 before 23",
            "22 before 24",
            "22 before 34",
            "23 before 24",
            "23 before 34",
            "24 before 34",
        ];
        points.group(TWO_FAULTS, orders);
        let lengths = [("token", 3), ("short confirmation", 1), ("status request", 6), ("response", 6)];
        let exact = lengths.into_iter().map(|(name, _)| Said(name));
        let more = lengths.into_iter().flat_map(|(name, n)| (n + 1..10).map(move |room| Numbered(name, room)));
        points.group(WRITTEN, exact.chain(more));
        points.group(RESPONSE_WRITTEN, (0..64).map(|code| Numbered("code", code)));
        let words = ["34", "14 before 18", "14 before 34", "34 before 18"].into_iter().map(Said);
        let rooms = lengths.into_iter().flat_map(|(name, n)| (0..n).map(move |room| Numbered(name, room)));
        points.group(WORD_REFUSED, words.chain(rooms));
        points.group(BAD_WORD, stray_points());
        self.tally.count_in(&mut points);
        for (point, count) in &self.stray {
            points.hit_times(BAD_WORD, point, *count);
        }
        points
    }
}
