//! The cases that the calls have to reach, by name: each way a line is not built as it should be, each refusal and which of two
//! faults decides, each number of telegrams, each length of a time, each room that is too small, each kind of entry.

use super::capture::{line_of, ADDED, ENTRY, MOST};
use super::tries::Try;
use crate::comparison::calls::{Made, Meets};
use crate::coverage::Point::{self, Numbered, Said};
use crate::coverage::{Points, Tally};
use crate::frames::frame::{frame_of, read, SD1, SD4};
use crate::frames::met::{name_of, STARTS};
use crate::records::{Decision, Place, PollRecord, Telegram, LAST_CLOCK};
use crate::trace::Entry;

const TEXT: &str = "text imported";
const TAKEN: &str = "line taken as the record's telegram";
const DIGITS_TAKEN: &str = "digits of a time taken";
const TIME_TAKEN: &str = "time taken";
const CASE_TAKEN: &str = "case of the digits taken";
const FRAME_TAKEN: &str = "frame taken";
const TELEGRAM_TAKEN: &str = "telegram taken";
const REFUSED: &str = "line refused";
const BAD_TIME: &str = "time not so built";
const BAD_FRAME: &str = "frame not so built";
const TWO_FAULTS: &str = "line with two faults";
const NO_ROOM: &str = "no room, bytes left";
const STANDS: &str = "telegrams that stand of the refused line's time";
const WHERE: &str = "refused line";
const ENTRIES: &str = "entry exported";
const EXPORTED: &str = "telegram exported";
const DIGITS_EXPORTED: &str = "digits of a time exported";
const CLOCK: &str = "clock exported";
const LEFT_OUT: &str = "field that is left out";
const ENTRY_REFUSED: &str = "entry refused";
const NO_ROOM_TEXT: &str = "no room for a line";
const WHERE_ENTRY: &str = "refused entry";

/// What has been met.
#[derive(Default)]
pub struct Met {
    tally: Tally,
}

/// The bytes beside the digits, and what else a digit is not.
const BESIDE: [(u8, &str); 13] = [
    (b'/', "the byte below 0"),
    (b':', "the byte above 9"),
    (b'@', "the byte below A"),
    (b'G', "the byte above F"),
    (b'`', "the byte below a"),
    (b'g', "the byte above f"),
    (b' ', "a space"),
    (b'\t', "a tab"),
    (b'\r', "a carriage return"),
    (b'+', "a plus"),
    (b'-', "a minus"),
    (0, "a zero byte"),
    (0xff, "the largest byte"),
];

fn kind_of(telegram: Telegram) -> &'static str {
    match telegram {
        Telegram::Token { .. } => "token",
        Telegram::ShortConfirmation => "short confirmation",
        Telegram::Request { status_request: true, .. } => "status request",
        Telegram::Request { .. } => "other request",
        Telegram::Response { .. } => "response",
    }
}

const KINDS: [&str; 5] = ["token", "short confirmation", "status request", "response", "other request"];

/// The time of the line before, and how many telegrams its record has.
type Before = Option<(u64, usize)>;

impl Met {
    fn hit(&mut self, group: &'static str, point: Point) {
        self.tally.hit(group, point);
    }

    fn see_text(&mut self, text: &[u8], room: usize, made: &Made) {
        let [refused, written] = made.lent;
        self.hit(TEXT, Said(if text.is_empty() { "empty" } else { "not empty" }));
        self.hit(TEXT, Said(if written as usize == room { "buffer full" } else { "bytes left in the buffer" }));
        let (mut before, mut used): (Before, usize) = (None, 0);
        for (line, number) in text.split_inclusive(|byte| *byte == b'\n').zip(1..) {
            if number == refused {
                return self.see_refused(line, number, before, room - used, made.returned);
            }
            let (time, bytes) = line_of(line).expect("a line that was taken");
            let count = match before {
                Some((at, count)) if at == time => count + 1,
                _ => 1,
            };
            used += if count == 1 { ENTRY } else { ADDED };
            before = Some((time, count));
            self.see_taken(line, time, &bytes, count);
        }
    }

    fn see_taken(&mut self, line: &[u8], time: u64, bytes: &[u8], count: usize) {
        self.hit(TAKEN, Numbered("number", count));
        self.hit(DIGITS_TAKEN, Numbered("digits:", line.iter().position(|byte| *byte == b' ').unwrap_or(0)));
        match time {
            0 => self.hit(TIME_TAKEN, Said("0")),
            LAST_CLOCK => self.hit(TIME_TAKEN, Said("2^48 - 1")),
            _ => self.hit(TIME_TAKEN, Said("another")),
        }
        let case = (line.iter().any(u8::is_ascii_uppercase), line.iter().any(u8::is_ascii_lowercase));
        let case = match case {
            (true, true) => "both",
            (true, false) => "upper",
            (false, true) => "lower",
            (false, false) => "no letter",
        };
        self.hit(CASE_TAKEN, Said(case));
        if let Some(name) = name_of(bytes[0]) {
            self.hit(FRAME_TAKEN, Said(name));
        }
        if let Ok((telegram, _)) = read(bytes) {
            self.hit(TELEGRAM_TAKEN, Said(kind_of(telegram)));
        }
    }

    fn see_refused(&mut self, line: &[u8], number: u64, before: Before, left: usize, refusal: u64) {
        self.hit(WHERE, Said(if number == 1 { "the first" } else { "a later one" }));
        let (time, frame) = (time_alone(line), frame_alone(line));
        if let (Some((at, count)), Some(time)) = (before, time) {
            if at == time {
                self.hit(STANDS, Numbered("telegrams:", count));
            }
        }
        // what else is wrong with it, in the order of the refusals
        let form = line_of(line).is_none();
        let below = matches!((before, time), (Some((at, _)), Some(time)) if time < at);
        let ninth = matches!((before, time), (Some((at, MOST)), Some(time)) if time == at);
        let reading = frame.as_ref().map(|bytes| read(bytes));
        let bad = matches!(reading, Some(Err(_)));
        let after = matches!((&reading, &frame), (Some(Ok((_, used))), Some(bytes)) if *used < bytes.len());
        let added = matches!((before, time), (Some((at, _)), Some(time)) if time == at);
        let full = left < if added { ADDED } else { ENTRY };
        let faults = [("31", form), ("32", below), ("33", ninth), ("frame", bad), ("after", after), ("18", full)];
        let there: Vec<&str> = faults.iter().filter(|(_, there)| *there).map(|(name, _)| *name).collect();
        if let [first, second, ..] = there[..] {
            if let Some(words) = ORDERS.iter().find(|words| **words == format!("{} before {}", first, second)) {
                self.hit(TWO_FAULTS, Said(words));
            } else {
                self.hit(TWO_FAULTS, Said("others"));
            }
        }
        // a frame that P1 refuses may have bytes after it, as the longest frame is known by its start
        if let (Some(Err(22..=24)), Some(bytes)) = (&reading, &frame) {
            let length = match bytes[0] {
                SD1 => 6,
                SD4 => 3,
                _ => bytes.len(),
            };
            if !form && !below && !ninth && length < bytes.len() {
                self.hit(TWO_FAULTS, Said("frame before after"));
            }
        }
        match refusal {
            31 if form => self.see_form(line),
            31 => self.hit(REFUSED, Said("31: bytes after the frame")),
            18 => self.hit(NO_ROOM, Numbered(if added { "telegram:" } else { "entry:" }, left)),
            refusal => self.hit(REFUSED, Numbered("number", refusal as usize)),
        }
    }

    /// Why a line is not built as it should be: the first thing from the left.
    fn see_form(&mut self, line: &[u8]) {
        let whole = match line.strip_suffix(b"\n") {
            Some(whole) => whole,
            None => {
                let good = line_of(&[line, b"\n"].concat()).is_some();
                return self
                    .hit(REFUSED, Said(if good { "31: good but for its line feed" } else { "31: no line feed" }));
            }
        };
        let space = match whole.iter().position(|byte| *byte == b' ') {
            Some(space) => space,
            None => return self.hit(REFUSED, Said(if whole.is_empty() { "31: empty line" } else { "31: no space" })),
        };
        let (time, frame) = (&whole[..space], &whole[space + 1..]);
        if line_of(&[time, b" e5\n"].concat()).is_none() {
            self.hit(REFUSED, Said("31: time"));
            let other = time.iter().find(|byte| !byte.is_ascii_digit());
            let point = match other {
                Some(byte) if *byte > 127 && *byte != 255 => Some("above 127"),
                Some(byte) if byte.is_ascii_hexdigit() => Some("a letter"),
                Some(byte) => BESIDE.iter().find(|(beside, _)| beside == byte).map(|(_, name)| *name),
                None if time.is_empty() => Some("none"),
                None if time[0] == b'0' => Some("leading zero"),
                None => {
                    self.hit(BAD_TIME, Numbered("too large, digits:", time.len().min(21)));
                    (time == b"281474976710656").then_some("2^48")
                }
            };
            if let Some(point) = point {
                self.hit(BAD_TIME, Said(point));
            }
            return;
        }
        self.hit(REFUSED, Said("31: frame"));
        let point = match frame.iter().position(|byte| !byte.is_ascii_hexdigit()) {
            None if frame.is_empty() => Some("none"),
            None => Some("odd number of digits"),
            Some(at) => match frame[at] {
                b' ' if at + 1 == frame.len() => Some("a space at its end"),
                b' ' if at == 0 => Some("a second space"),
                byte if byte > 127 && byte != 255 => Some("above 127"),
                byte => BESIDE.iter().find(|(beside, _)| *beside == byte).map(|(_, name)| *name),
            },
        };
        if let Some(point) = point {
            self.hit(BAD_FRAME, Said(point));
        }
    }

    fn see_entries(&mut self, entries: &[u8], room: usize, made: &Made) {
        let [refused, _] = made.lent;
        let (mut rest, mut number, mut left) = (entries, 1, room);
        let mut before = None;
        while !rest.is_empty() {
            let found = Entry::first(rest);
            if number == refused {
                self.hit(WHERE_ENTRY, Said(if number == 1 { "the first" } else { "a later one" }));
            }
            let (entry, after) = match found {
                Some(found) => found,
                None => {
                    self.hit(ENTRY_REFUSED, Said(if rest.len() == 1 { "17: its first byte alone" } else { "17" }));
                    if left == 0 {
                        self.hit(ENTRY_REFUSED, Said("17 without room"));
                    }
                    return;
                }
            };
            match entry {
                Entry::Online => self.hit(ENTRIES, Said("online")),
                Entry::Offline => self.hit(ENTRIES, Said("offline")),
                Entry::Passive => self.hit(ENTRIES, Said("passive")),
                Entry::Poll(bytes) => match PollRecord::decode(1, bytes) {
                    Ok(record) => {
                        self.see_clock(before, record.clock);
                        before = Some(record.clock);
                        if !self.see_record(&record, &mut left) {
                            return;
                        }
                    }
                    Err(fault) => {
                        self.see_fault(fault);
                        if left == 0 {
                            self.hit(ENTRY_REFUSED, Said("12 to 15 without room"));
                        }
                        return;
                    }
                },
            }
            rest = after;
            number += 1;
        }
    }

    fn see_clock(&mut self, before: Option<u64>, clock: u64) {
        let point = match before {
            None => "the first",
            Some(before) if clock < before => "goes back",
            Some(before) if clock == before => "stays",
            Some(_) => "rises",
        };
        self.hit(CLOCK, Said(point));
    }

    fn see_fault(&mut self, fault: (u8, Place)) {
        let point = match fault {
            (12, Place::Head) => Said("12: fewer than 8 bytes"),
            (12, _) => Said("12: length"),
            (13, _) => Said("13"),
            (14, Place::Decision(i)) => Numbered("14: decision", i),
            (15, Place::Decision(i)) => Numbered("15: decision", i),
            (_, Place::Telegram(i)) => Numbered("14: telegram", i),
            _ => Said("others"),
        };
        self.hit(ENTRY_REFUSED, point);
    }

    /// Whether there was room for all its lines.
    fn see_record(&mut self, record: &PollRecord, left: &mut usize) -> bool {
        self.hit(ENTRIES, Numbered("record, telegrams:", record.telegrams.len()));
        let fields = [
            ("transmitting", record.transmitting),
            ("pending bytes", record.pending != 0),
            ("decision, normal", record.decisions[0].0 != Decision::Declines),
            ("decision, high", record.decisions[0].1 != Decision::Declines),
        ];
        fields.iter().filter(|(_, there)| *there).for_each(|(name, _)| self.hit(LEFT_OUT, Said(name)));
        let mut earlier = false;
        for telegram in &record.telegrams {
            let frame = match frame_of(*telegram) {
                Ok(frame) => frame,
                Err(_) => {
                    self.hit(EXPORTED, Said(if *left == 0 { "skipped without room" } else { "skipped" }));
                    continue;
                }
            };
            let digits = record.clock.to_string().len();
            let length = digits + 2 + 2 * frame.len();
            if length > *left {
                self.hit(NO_ROOM_TEXT, Numbered("bytes left:", *left));
                self.hit(
                    NO_ROOM_TEXT,
                    Said(if earlier { "behind lines of the same entry" } else { "first of its entry" }),
                );
                return false;
            }
            *left -= length;
            earlier = true;
            self.hit(EXPORTED, Said(kind_of(*telegram)));
            self.hit(DIGITS_EXPORTED, Numbered("digits:", digits));
        }
        true
    }
}

/// The time of a line that may be bad otherwise.
fn time_alone(line: &[u8]) -> Option<u64> {
    let space = line.iter().position(|byte| *byte == b' ')?;
    line_of(&[&line[..space], b" e5\n"].concat()).map(|(time, _)| time)
}

/// The frame of a line that may be bad otherwise.
fn frame_alone(line: &[u8]) -> Option<Vec<u8>> {
    let line = line.strip_suffix(b"\n").unwrap_or(line);
    let space = line.iter().position(|byte| *byte == b' ')?;
    line_of(&[b"0", &line[space..], b"\n"].concat()).map(|(_, frame)| frame)
}

/// Which of two faults of a line decides.
const ORDERS: [&str; 13] = [
    "31 before 32",
    "31 before 33",
    "31 before frame",
    "31 before after",
    "31 before 18",
    "32 before frame",
    "32 before after",
    "32 before 18",
    "33 before frame",
    "33 before after",
    "33 before 18",
    "frame before 18",
    "after before 18",
];

impl Meets<Try> for Met {
    fn see(&mut self, one: &Try, made: &Made) {
        match one {
            Try::Import(text, buffer) => self.see_text(text, buffer.len(), made),
            Try::Export(entries, buffer) => self.see_entries(entries, buffer.len(), made),
        }
    }

    fn points(&self) -> Points {
        let mut points = Points::default();
        let numbered =
            |words: &'static str, range: std::ops::Range<usize>| range.map(move |number| Numbered(words, number));
        points.group(TEXT, ["empty", "not empty", "buffer full", "bytes left in the buffer"]);
        points.group(TAKEN, numbered("number", 1..MOST + 1));
        points.group(DIGITS_TAKEN, numbered("digits:", 1..16));
        points.group(TIME_TAKEN, ["0", "2^48 - 1", "another"]);
        points.group(CASE_TAKEN, ["lower", "upper", "both", "no letter"]);
        points.group(FRAME_TAKEN, STARTS.map(|(_, name)| name));
        points.group(TELEGRAM_TAKEN, KINDS);
        let said = [
            "31: no line feed",
            "31: good but for its line feed",
            "31: empty line",
            "31: no space",
            "31: time",
            "31: frame",
            "31: bytes after the frame",
        ];
        let numbers = [32, 33, 19, 20, 21, 22, 23, 24, 34].map(|number| Numbered("number", number));
        points.group(REFUSED, said.into_iter().map(Said).chain(numbers));
        // a space ends a time
        let beside = BESIDE.iter().filter(|(byte, _)| *byte != b' ').map(|(_, name)| Said(name));
        let times = ["above 127", "a letter", "none", "leading zero", "2^48"].into_iter().map(Said);
        points.group(BAD_TIME, times.chain(numbered("too large, digits:", 15..22)).chain(beside));
        let frames = ["none", "odd number of digits", "a space at its end", "a second space", "above 127"];
        points.group(BAD_FRAME, frames.into_iter().chain(BESIDE.iter().map(|(_, name)| *name)));
        points.group(TWO_FAULTS, ORDERS.into_iter().chain(["frame before after"]));
        points.group(NO_ROOM, numbered("entry:", 0..ENTRY).chain(numbered("telegram:", 0..ADDED)));
        points.group(STANDS, numbered("telegrams:", 1..MOST + 1));
        points.group(WHERE, ["the first", "a later one"]);
        let commands = ["online", "offline", "passive"].into_iter().map(Said);
        points.group(ENTRIES, commands.chain(numbered("record, telegrams:", 0..MOST + 1)));
        points.group(EXPORTED, KINDS[..4].iter().copied().chain(["skipped", "skipped without room"]));
        points.group(DIGITS_EXPORTED, numbered("digits:", 1..16));
        points.group(CLOCK, ["the first", "rises", "stays", "goes back"]);
        points.group(LEFT_OUT, ["transmitting", "pending bytes", "decision, normal", "decision, high"]);
        let faults = [
            "12: fewer than 8 bytes",
            "12: length",
            "13",
            "17",
            "17: its first byte alone",
            "17 without room",
            "12 to 15 without room",
        ];
        let places = numbered("14: decision", 0..2).chain(numbered("15: decision", 0..2));
        let places = places.chain(numbered("14: telegram", 0..MOST));
        points.group(ENTRY_REFUSED, faults.into_iter().map(Said).chain(places));
        // the longest line has 15 digits, a space, a frame of 6 bytes and a line feed
        let which = ["behind lines of the same entry", "first of its entry"].into_iter().map(Said);
        points.group(NO_ROOM_TEXT, which.chain(numbered("bytes left:", 0..29)));
        points.group(WHERE_ENTRY, ["the first", "a later one"]);
        self.tally.count_in(&mut points);
        points
    }
}
