//! Document 02, P13: an importer and an exporter of a bus monitor's capture, from the request's words. A text is a list of
//! lines, a line is taken apart as text, and the records are put together by document 01's records when all lines are known.

use crate::frames::frame::{frame_of, read};
use crate::records::{PollRecord, Telegram, LAST_CLOCK};
use crate::trace::Entry;

/// "up to 8"
pub const MOST: usize = 8;

/// "a station with one application that declines"
pub const APPLICATIONS: u8 = 1;

/// The bytes of an entry with one telegram, and what each other one adds.
pub const ENTRY: usize = 1 + 8 + 6 + 4;
pub const ADDED: usize = 4;

/// What stopped a call: the number of the refusal, and the line or entry, counted from 1.
pub type Refused = (u8, u64);

/// "a decimal time in microseconds, one space, then the frame as one or more pairs of hex digits, lower or upper case, one per
/// line, ended by a line feed": the time and the frame's bytes; `None` if the line is not so built.
pub fn line_of(line: &[u8]) -> Option<(u64, Vec<u8>)> {
    let line = line.strip_suffix(b"\n")?;
    let space = line.iter().position(|byte| *byte == b' ')?;
    let (time, pairs) = (&line[..space], &line[space + 1..]);
    Some((time_of(time)?, bytes_of(pairs)?))
}

/// "The time has no leading zero, 0 itself apart, and fits the clock."
fn time_of(digits: &[u8]) -> Option<u64> {
    if digits.is_empty() || (digits[0] == b'0' && digits.len() > 1) {
        return None;
    }
    let mut time = 0;
    for digit in digits {
        // the digits before this one make at most the clock's last value, so that nothing overflows
        time = 10 * time + u64::from(digit_of(*digit, 10)?);
        if time > LAST_CLOCK {
            return None;
        }
    }
    Some(time)
}

fn bytes_of(pairs: &[u8]) -> Option<Vec<u8>> {
    if pairs.is_empty() || pairs.len() % 2 != 0 {
        return None;
    }
    pairs.chunks(2).map(|pair| Some(16 * digit_of(pair[0], 16)? + digit_of(pair[1], 16)?)).collect()
}

/// What an ASCII digit is worth to this base.
fn digit_of(byte: u8, base: u32) -> Option<u8> {
    char::from(byte).to_digit(base).map(|digit| digit as u8)
}

/// The records of a text's lines with room for so many bytes of entries, up to the first that is refused.
pub fn import(text: &[u8], room: usize) -> (Vec<PollRecord>, Option<Refused>) {
    let mut records: Vec<PollRecord> = Vec::new();
    let mut used = 0;
    for (line, number) in text.split_inclusive(|byte| *byte == b'\n').zip(1..) {
        if let Err(refusal) = take_line(&mut records, &mut used, room, line) {
            return (records, Some((refusal, number)));
        }
    }
    (records, None)
}

/// "Refusals: 31 a line that is not so built, 32 a time below the one before, 33 more than 8 of one time, then P1's numbers,
/// 31 for bytes after the frame, 18 no room for the line's entry or added telegram". A line that is refused changes nothing.
fn take_line(records: &mut Vec<PollRecord>, used: &mut usize, room: usize, line: &[u8]) -> Result<(), u8> {
    let (time, bytes) = line_of(line).ok_or(31)?;
    let before = records.last().map(|record| record.clock);
    if before.map_or(false, |before| time < before) {
        return Err(32);
    }
    // "lines with equal time make one record"
    let same = if before == Some(time) { records.last_mut() } else { None };
    if same.as_ref().map_or(false, |record| record.telegrams.len() == MOST) {
        return Err(33);
    }
    let telegram = telegram_of(&bytes)?;
    let more = if same.is_some() { ADDED } else { ENTRY };
    if room - *used < more {
        return Err(18);
    }
    *used += more;
    match same {
        Some(record) => record.telegrams.push(telegram),
        None => {
            let mut record = PollRecord::silent(time, APPLICATIONS.into());
            record.telegrams.push(telegram);
            records.push(record);
        }
    }
    Ok(())
}

/// "Frames are read by P1."
fn telegram_of(bytes: &[u8]) -> Result<Telegram, u8> {
    let (telegram, used) = read(bytes)?;
    if used < bytes.len() {
        return Err(31);
    }
    Ok(telegram)
}

/// The lines of these entries with room for so many bytes of text, up to the first that is refused: "Exporting skips telegrams
/// that P1 cannot write and gives such lines again, in lower case."
pub fn export(entries: &[u8], room: usize) -> (String, Option<Refused>) {
    let (mut text, mut rest, mut number) = (String::new(), entries, 1);
    while !rest.is_empty() {
        let (entry, after) = match Entry::first(rest) {
            Some(found) => found,
            None => return (text, Some((17, number))),
        };
        if let Entry::Poll(bytes) = entry {
            let record = match PollRecord::decode(APPLICATIONS, bytes) {
                Ok(record) => record,
                Err((refusal, _)) => return (text, Some((refusal, number))),
            };
            for frame in record.telegrams.into_iter().flat_map(frame_of) {
                let line = line_with(record.clock, &frame);
                if text.len() + line.len() > room {
                    return (text, Some((18, number)));
                }
                text.push_str(&line);
            }
        }
        rest = after;
        number += 1;
    }
    (text, None)
}

/// The line of a frame at this time.
pub fn line_with(time: u64, frame: &[u8]) -> String {
    let pairs: String = frame.iter().map(|byte| format!("{:02x}", byte)).collect();
    format!("{} {}\n", time, pairs)
}

/// The call: writes the entries, the refused line or 0, and how many bytes were written.
pub fn import_capture(text: &[u8], entries: &mut [u8], line: &mut u64, written: &mut u64) -> u64 {
    let (records, refused) = import(text, entries.len());
    let bytes: Vec<u8> = records.iter().flat_map(PollRecord::entry).collect();
    leave(&bytes, refused, entries, line, written)
}

/// The call: writes the text, the refused entry or 0, and how many bytes were written.
pub fn export_capture(entries: &[u8], text: &mut [u8], entry: &mut u64, written: &mut u64) -> u64 {
    let (lines, refused) = export(entries, text.len());
    leave(lines.as_bytes(), refused, text, entry, written)
}

/// Puts these bytes at the buffer's start and says what was refused and where.
fn leave(bytes: &[u8], refused: Option<Refused>, buffer: &mut [u8], place: &mut u64, written: &mut u64) -> u64 {
    buffer[..bytes.len()].copy_from_slice(bytes);
    *written = bytes.len() as u64;
    let (number, at) = refused.unwrap_or((0, 0));
    *place = at;
    number.into()
}

#[cfg(test)]
mod tests {
    use super::*;

    /// What an import leaves: number, line, bytes written as they stand in the buffer.
    fn imported(text: &[u8], room: usize) -> (u64, u64, Vec<u8>) {
        let (mut entries, mut line, mut written) = (vec![0xa5; room], 7, 7);
        let number = import_capture(text, &mut entries, &mut line, &mut written);
        assert!(entries[written as usize..].iter().all(|byte| *byte == 0xa5));
        entries.truncate(written as usize);
        (number, line, entries)
    }

    fn exported(entries: &[u8], room: usize) -> (u64, u64, String) {
        let (mut text, mut entry, mut written) = (vec![0xa5; room], 7, 7);
        let number = export_capture(entries, &mut text, &mut entry, &mut written);
        assert!(text[written as usize..].iter().all(|byte| *byte == 0xa5));
        text.truncate(written as usize);
        (number, entry, String::from_utf8(text).expect("text"))
    }

    /// Two lines of one time and one of another: 18 = 8 + 6 + 4 bytes and a token from 9 to 5, 22 bytes with the short
    /// confirmation; docs/FORMAT.md has the words.
    #[test]
    fn an_entry_stated_by_hand() {
        let both = [
            &[0x16, 0, 0, 0, 0, 0x03, 0xe8, 0x10, 0][..],
            &[0; 6],
            &[0x02, 0x89, 0, 0, 0x40, 0, 0, 0],
            &[0x12, 0, 0, 0, 0, 0x03, 0xe9, 0x08, 0],
            &[0; 6],
            &[0x82, 0x89, 0x80, 0],
        ]
        .concat();
        let text = b"1000 DC0509\n1000 e5\n1001 100509495716\n";
        assert_eq!(imported(text, 42), (0, 0, both.clone()));
        assert_eq!(imported(text, 60), (0, 0, both.clone()));
        assert_eq!(exported(&both, 80), (0, 0, "1000 dc0509\n1000 e5\n1001 100509495716\n".to_string()));
        // without room: nothing of the line
        assert_eq!(imported(text, 41), (18, 3, both[..23].to_vec()));
        assert_eq!(imported(text, 22).0, 18);
        assert_eq!(imported(text, 22).1, 2);
        assert_eq!(imported(text, 22).2[..9], [0x12, 0, 0, 0, 0, 0x03, 0xe8, 0x08, 0]);
        assert_eq!(imported(text, 18), (18, 1, vec![]));
        assert_eq!(exported(&both, 19), (18, 1, "1000 dc0509\n".to_string()));
        assert_eq!(exported(&both, 20), (18, 2, "1000 dc0509\n1000 e5\n".to_string()));
        assert_eq!((imported(b"", 0), exported(b"", 0)), ((0, 0, vec![]), (0, 0, String::new())));
    }

    #[test]
    fn lines_that_are_not_so_built() {
        let bad: [&[u8]; 30] = [
            b"\n",
            b" \n",
            b"e5\n",
            b"1\n",
            b"1 \n",
            b"1 e5",
            b" e5\n",
            b"01 e5\n",
            b"00 e5\n",
            b"+1 e5\n",
            b"-1 e5\n",
            b"1  e5\n",
            b" 1 e5\n",
            b"1 e5 \n",
            b"1 e5\r\n",
            b"1\te5\n",
            b"1 e\n",
            b"1 e5e\n",
            b"1 eg\n",
            b"1 e5 e5\n",
            b"1 e5\n\n",
            b"1e e5\n",
            b"281474976710656 e5\n",
            b"18446744073709551616 e5\n",
            b"18446744073709551617 e5\n",
            b"1000000000000000000000000000000000000000000000000 e5\n",
            b"1 e5e5\n",
            b"\xef\xbc\x91 e5\n",
            b"1 e5\0\n",
            b"1,000 e5\n",
        ];
        for text in bad {
            let line = if text == b"1 e5\n\n" { 2 } else { 1 };
            let (number, at, _) = imported(text, 100);
            assert_eq!((number, at), (31, line), "{}", String::from_utf8_lossy(text));
        }
        assert_eq!(imported(b"281474976710655 e5\n", 19).0, 0);
        assert_eq!(imported(b"0 e5\n0 E5\n", 23).0, 0);
        assert_eq!(imported(b"0 eE5\n", 23).0, 31);
    }

    #[test]
    fn the_order_in_a_line() {
        let nine = "5 e5\n".repeat(8);
        let after = |line: &str, room| {
            let (number, at, entries) = imported([nine.as_bytes(), line.as_bytes()].concat().as_slice(), room);
            assert_eq!((at, entries.len()), (9, 47), "{}", line);
            number
        };
        assert_eq!(after("4 e\n", 47), 31);
        assert_eq!(after("4 00\n", 47), 32);
        assert_eq!(after("5 00\n", 47), 33);
        assert_eq!(after("5 e5", 47), 31);
        assert_eq!(after("5 e5\n", 60), 33);
        assert_eq!(after("6 00\n", 47), 20);
        assert_eq!(after("6 0000\n", 47), 20);
        assert_eq!(after("6 e500\n", 47), 31);
        assert_eq!(after("6 e5\n", 47), 18);
        assert_eq!(after("6 e5\n", 65), 18);
    }

    #[test]
    fn what_is_exported() {
        let token = PollRecord { transmitting: true, pending: 7, ..PollRecord::silent(1, 1) };
        let with = |clock, telegrams: &[Telegram]| {
            PollRecord { clock, telegrams: telegrams.to_vec(), ..token.clone() }.entry()
        };
        let request = Telegram::Request { destination: 1, source: 2, status_request: false };
        let last = (1 << 48) - 1;
        let entries = [vec![0, 1, 2], with(last, &[request, Telegram::token(9, 5)]), with(0, &[request]), vec![2, 1]];
        assert_eq!(exported(&entries.concat(), 99), (0, 0, "281474976710655 dc0509\n".to_string()));
        let back = [with(7, &[Telegram::ShortConfirmation]), with(6, &[Telegram::ShortConfirmation]), vec![14, 0]];
        assert_eq!(exported(&back.concat(), 99), (17, 3, "7 e5\n6 e5\n".to_string()));
        assert_eq!(exported(&[3, 0, 0, 0], 99), (12, 1, String::new()));
        assert_eq!(exported(&[0, 3, 0, 0], 99), (17, 2, String::new()));
        // two applications
        assert_eq!(exported(&PollRecord::silent(1, 2).entry(), 99), (12, 1, String::new()));
    }
}
