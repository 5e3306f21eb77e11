//! What is tried: lines put together of good and bad pieces, every short text over an alphabet, every damage of a text and of
//! entries, every room, and texts and entries made at random, whole and damaged.

use super::capture::{export, import_capture, line_with, ADDED, ENTRY, MOST};
use crate::comparison::calls::Parts;
use crate::frames::frame::frame_of;
use crate::frames::tries::at_random as frame_at_random;
use crate::generator::Seed;
use crate::records::{entry_of, Decision, PollRecord, Telegram, LAST_CLOCK};

/// One call: a text to import, or entries to export, into a buffer that holds these bytes.
#[derive(Debug, Clone, PartialEq, Eq)]
pub enum Try {
    Import(Vec<u8>, Vec<u8>),
    Export(Vec<u8>, Vec<u8>),
}

/// What buffers are filled with.
const FILL: u8 = 0xa5;

/// The bytes of the short texts: digits that are zero or not, letters that are hex digits in either case or none, the space,
/// the line feed, the carriage return.
const ALPHABET: [u8; 9] = *b"05eE g\n\r+";

/// The longest of the short texts, and of those behind a whole line.
const SHORT: usize = 6;
const SHORT_BEHIND: usize = 5;

/// Times, good and bad: the borders of the clock and of 64 and 128 bits, leading zeros, signs, none, digits that are no ASCII,
/// other number systems.
const TIMES: [&[u8]; 34] = [
    b"0",
    b"1",
    b"9",
    b"10",
    b"5000",
    b"281474976710655",
    b"281474976710654",
    b"281474976710656",
    b"281474976710665",
    b"281474976711655",
    b"300000000000000",
    b"999999999999999",
    b"2814749767106550",
    b"18446744073709551615",
    b"18446744073709551616",
    b"18446744073709551621",
    b"36893488147419103237",
    b"340282366920938463463374607431768211456",
    b"340282366920938463463374607431768211461",
    b"10000000000000000000000000000000000000000000000000000000000000000",
    b"",
    b"00",
    b"01",
    b"007",
    b"0281474976710655",
    b"+5",
    b"-5",
    b"5.0",
    b"0x5",
    b"1e3",
    b"5a",
    b"\xd9\xa5",
    b"\xef\xbc\x95",
    b"5\0",
];

/// What stands between time and frame.
const BETWEEN: [&[u8]; 7] = [b" ", b"", b"  ", b"\t", b"\xc2\xa0", b",", b"\n"];

/// Frames as digits: each start byte in lower and upper case, an odd number of digits, none, letters beside the hex digits,
/// faults that P1 refuses, bytes after the frame, spaces.
const FRAMES: [&[u8]; 36] = [
    b"e5",
    b"E5",
    b"eE5",
    b"dc0509",
    b"DC0509",
    b"dC7F7e",
    b"100509495716",
    b"10051408211 6",
    b"100514082116",
    b"100509596716",
    b"680505680514081234 6716",
    b"6805056805140812346716",
    b"A205094901010101010101015F16",
    b"",
    b"e",
    b"e5e",
    b"e5 ",
    b" e5",
    b"e5\r",
    b"e/",
    b"e:",
    b"@5",
    b"G5",
    b"`5",
    b"g5",
    b"\xc35",
    b"00",
    b"10",
    b"68030368",
    b"100509495816",
    b"100509495717",
    b"108509 49",
    b"108509 49d716",
    b"10850949d716",
    b"100509c9d716",
    b"e5e5",
];

/// What ends a line.
const ENDS: [&[u8]; 6] = [b"\n", b"", b"\r\n", b" \n", b"\n\n", b"\r"];

/// All that is tried, in parts with their names; so many texts, and as many lists of entries, are made at random.
pub fn parts(seed: u64, count: u64) -> Parts<Try> {
    let sample = |text: Vec<u8>| Try::Import(text, vec![FILL; 120]);
    let entries = |entries: Vec<u8>| Try::Export(entries, vec![FILL; 120]);
    vec![
        ("rooms for entries", Box::new(rooms_for_entries())),
        ("rooms for text", Box::new(rooms_for_text())),
        ("long texts and entries", Box::new(long())),
        ("damaged entries", Box::new(each_damage(&sample_entries()).chain(each_damage(&full_entry())).map(entries))),
        ("damaged texts", Box::new(each_damage(&sample_text()).chain(each_byte()).map(sample))),
        ("lines of pieces", Box::new(of_pieces())),
        ("short texts", Box::new(short_texts().map(sample))),
        ("texts at random", Box::new((0..count).map(move |i| text_at_random(seed, i)))),
        ("entries at random", Box::new((0..count).map(move |i| entries_at_random(seed, i)))),
    ]
}

/// Every line of the pieces above: alone, behind a line of a time below, of the same time and of a time above it, and behind
/// eight lines of its time; with room for it, and with none.
fn of_pieces() -> impl Iterator<Item = Try> {
    let befores: [&[u8]; 4] = [b"", b"5 e5\n", b"281474976710655 e5\n", b"3 e5\n4 e5\n"];
    let lines = TIMES.into_iter().flat_map(|time| {
        BETWEEN.into_iter().flat_map(move |between| {
            FRAMES
                .into_iter()
                .flat_map(move |frame| ENDS.into_iter().map(move |end| [time, between, frame, end].concat()))
        })
    });
    lines.flat_map(move |line| {
        let eight: Vec<u8> = match line.iter().position(|byte| *byte == b' ') {
            Some(space) => [&line[..space], b" e5\n"].concat().repeat(MOST),
            None => b"5 e5\n".repeat(MOST),
        };
        let mut tries = Vec::new();
        for before in befores {
            let text = [before, &line].concat();
            tries.push(Try::Import(text.clone(), vec![FILL; 60]));
            tries.push(Try::Import(text, vec![FILL; if before.is_empty() { 0 } else { ENTRY }]));
        }
        let full = ENTRY + (MOST - 1) * ADDED;
        for room in [full, full + ENTRY] {
            tries.push(Try::Import([&eight[..], &line].concat(), vec![FILL; room]));
        }
        tries
    })
}

/// Every text of so many bytes over the alphabet.
fn over_alphabet(length: usize) -> impl Iterator<Item = Vec<u8>> {
    let letters = ALPHABET.len();
    (0..letters.pow(length as u32)).map(move |number| {
        let mut rest = number;
        let letter = |_| {
            let letter = ALPHABET[rest % letters];
            rest /= letters;
            letter
        };
        (0..length).map(letter).collect()
    })
}

/// Every short text over the alphabet, and every shorter one behind a line.
fn short_texts() -> impl Iterator<Item = Vec<u8>> {
    let behind = (0..=SHORT_BEHIND).flat_map(over_alphabet).map(|text| [&b"5 e5\n"[..], &text].concat());
    (0..=SHORT).flat_map(over_alphabet).chain(behind)
}

/// A text with several records, of one to three telegrams.
fn sample_text() -> Vec<u8> {
    b"0 e5\n7 dc0509\n7 100509495716\n7 E5\n1000 100514082116\n1001 6805056805140812346716\n".to_vec()
}

/// The bytes with each one changed to each value, left out, put in twice, exchanged with the next, and cut at every place;
/// and with something put in at every place.
fn each_damage(whole: &[u8]) -> impl Iterator<Item = Vec<u8>> {
    let whole = whole.to_vec();
    (0..=whole.len()).flat_map(move |place| {
        let (before, after) = whole.split_at(place);
        let mut damaged = vec![before.to_vec(), after.to_vec()];
        for byte in [b'0', b'1', b' ', b'\n', b'e', b'5', b'\r', 0, 1, 2, 3, 0xff] {
            damaged.push([before, &[byte], after].concat());
        }
        if let Some((first, rest)) = after.split_first() {
            damaged.extend((0..=255).map(|byte| [before, &[byte], rest].concat()));
            damaged.push([before, rest].concat());
            damaged.push([before, &[*first], after].concat());
            if let Some((second, rest)) = rest.split_first() {
                damaged.push([before, &[*second, *first], rest].concat());
            }
        }
        damaged
    })
}

/// Every byte as the only digit of a time, in it, and in both places of a pair; every pair of two digits in each case.
fn each_byte() -> impl Iterator<Item = Vec<u8>> {
    let bytes = (0..=255).flat_map(|byte| {
        [
            [&[byte][..], b" e5\n"].concat(),
            [&b"1"[..], &[byte], b"2 e5\n"].concat(),
            [&b"1 "[..], &[byte], b"5\n"].concat(),
            [&b"1 e"[..], &[byte], b"\n"].concat(),
            [&b"1 dc05"[..], &[byte], b"9\n"].concat(),
            [&b"1 dc050"[..], &[byte], b"\n"].concat(),
            [&b"1 e5\n"[..], &[byte]].concat(),
        ]
    });
    let pairs = (0..=127u8).flat_map(|value| {
        let digits = format!("{:02x}", value);
        let mixed: String =
            digits.chars().enumerate().map(|(i, c)| if i == 0 { c.to_ascii_uppercase() } else { c }).collect();
        [digits.to_ascii_uppercase(), mixed, digits].map(|pair| format!("1 dc{}{}\n", pair, pair).into_bytes())
    });
    bytes.chain(pairs)
}

/// A text of records with one to eight telegrams, and every room from none to more than enough; and each of its refusals with
/// every room.
fn rooms_for_entries() -> impl Iterator<Item = Try> {
    let mut whole = Vec::new();
    for count in 1..=MOST {
        whole.extend(format!("{} e5\n", 10 * count).repeat(count).bytes());
    }
    let ends: [&[u8]; 10] = [
        b"",
        b"80 e5\n",
        b"79 e5\n",
        b"81 e\n",
        b"81 00\n",
        b"81 e5e5\n",
        b"81 e5",
        b"80 00\n",
        b"81 100509495717\n",
        b"081 e5\n",
    ];
    let most = MOST * ENTRY + ADDED * MOST * (MOST - 1) / 2;
    ends.into_iter().flat_map(move |end| {
        let text = [&whole[..], end].concat();
        (0..=most + ENTRY + 2).map(move |room| Try::Import(text.clone(), vec![FILL; room]))
    })
}

/// A record for one application with these telegrams and every other field set.
fn record(clock: u64, telegrams: &[Telegram]) -> PollRecord {
    let decisions =
        vec![(Decision::Sends { reply: Some(20), length: 10 }, Decision::Sends { reply: None, length: 255 })];
    PollRecord { clock, transmitting: true, pending: 2047, decisions, telegrams: telegrams.to_vec() }
}

/// Telegrams of each kind: four that P1 writes and one that it does not.
fn telegrams() -> [Telegram; 5] {
    [
        Telegram::token(9, 5),
        Telegram::Request { destination: 5, source: 9, status_request: false },
        Telegram::ShortConfirmation,
        Telegram::status_request(126, 127),
        Telegram::Response { destination: 5, source: 20, station_type: 3, status: 15 },
    ]
}

/// Commands, a record with each kind of telegram, one with none.
fn sample_entries() -> Vec<u8> {
    let all = record(12_345, &telegrams()).entry();
    [vec![0, 1, 2], all, PollRecord::silent(7, 1).entry(), record(0, &[Telegram::ShortConfirmation]).entry()].concat()
}

/// A record with as many telegrams as there can be.
fn full_entry() -> Vec<u8> {
    record(LAST_CLOCK, &[Telegram::ShortConfirmation; MOST]).entry()
}

/// Entries with each number of telegrams and each length of a time, and every room; and each refusal behind them with every
/// room.
fn rooms_for_text() -> impl Iterator<Item = Try> {
    let kinds = telegrams();
    let mut good = Vec::new();
    for count in 0..=MOST {
        let some: Vec<Telegram> = (0..count).map(|i| kinds[(i + count) % kinds.len()]).collect();
        good.push(record([0, 9, 10, 99, 100, 12_345, LAST_CLOCK, 1, 70_000_000][count], &some).entry());
    }
    let ends: [Vec<u8>; 9] = [
        vec![],
        vec![0],
        vec![3, 0, 0, 0],
        vec![3, 0, 0],
        entry_of(&[0xff; 20]),
        entry_of(&[0, 0, 0, 0, 0, 0, 0, 0, 0x80, 0, 0, 0, 0, 0]),
        entry_of(&[0, 0, 0, 0, 0, 0, 0, 0, 0, 0, 1, 0, 0, 0]),
        entry_of(&[0, 0, 0, 0, 0, 0, 8, 0, 0, 0, 0, 0, 0, 0, 0, 0, 0, 1]),
        record(5, &[kinds[1]]).entry(),
    ];
    let whole = good.concat();
    ends.into_iter().flat_map(move |end| {
        let entries = [&whole[..], &end].concat();
        let all = export(&entries, usize::MAX).0.len();
        (0..=all + 2).map(move |room| Try::Export(entries.clone(), vec![FILL; room]))
    })
}

/// A text of 3,000 lines with entries for it, and the entries back; the same with a bad last line and a cut last entry.
fn long() -> impl Iterator<Item = Try> {
    let seed = &mut Seed::of_index(1, 1);
    let mut text = Vec::new();
    let mut time = 0;
    for _ in 0..3000 {
        time += seed.pick(&[0, 1, 1, 20, 999, 1_000_000]);
        text.extend(
            line_with(time + 2, &frame_of(telegrams()[seed.pick(&[0, 2, 3, 4])]).expect("it is written")).bytes(),
        );
        time += 1;
    }
    let room = 3000 * ENTRY;
    let mut entries = vec![FILL; room];
    let (mut line, mut written) = (0, 0);
    import_capture(&text, &mut entries, &mut line, &mut written);
    entries.truncate(written as usize);
    let cut = entries[..entries.len() - 1].to_vec();
    let without_end = text[..text.len() - 1].to_vec();
    let back = text.len();
    vec![
        Try::Import(text.clone(), vec![FILL; room]),
        Try::Import(without_end, vec![FILL; room]),
        Try::Import(text, vec![FILL; room / 2]),
        Try::Export(entries.clone(), vec![FILL; back]),
        Try::Export(entries, vec![FILL; back / 2]),
        Try::Export(cut, vec![FILL; back]),
    ]
    .into_iter()
}

/// Digits in another case: all, none or any of them.
fn in_case(seed: &mut Seed, digits: &str) -> String {
    let case = seed.below(3);
    digits.chars().map(|c| if case == 0 || (case == 1 && seed.coin()) { c.to_ascii_uppercase() } else { c }).collect()
}

/// A telegram at random; seldom one that P1 does not write.
fn telegram(seed: &mut Seed) -> Telegram {
    let (destination, source) = (seed.below(128) as u8, seed.below(128) as u8);
    match seed.below(9) {
        0 | 1 => Telegram::Token { destination, source },
        2 | 3 => Telegram::ShortConfirmation,
        4 | 5 => Telegram::Request { destination, source, status_request: true },
        6 | 7 => {
            let (station_type, status) = (seed.below(4) as u8, seed.below(16) as u8);
            Telegram::Response { destination, source, station_type, status }
        }
        _ => Telegram::Request { destination, source, status_request: false },
    }
}

/// A frame that P1 reads; seldom any of P1's own tries.
fn frame(seed: &mut Seed) -> Vec<u8> {
    match seed.below(40) {
        0 => frame_at_random(seed.word(), 0),
        1 => vec![0x68, 5, 5, 0x68, 5, 20, 8, 0x12, 0x34, 0x67, 0x16],
        2 => vec![0xa2, 5, 9, 0x49, 1, 1, 1, 1, 1, 1, 1, 1, 0x5f, 0x16],
        3 => vec![0x10, 5, 9, 0x59, 0x67, 0x16],
        _ => frame_of(telegram(seed)).unwrap_or_else(|_| vec![0xe5]),
    }
}

/// A text at random: one in four is whole, the others have something damaged; the room is none, some or more than enough.
fn text_at_random(seed: u64, index: u64) -> Try {
    let seed = &mut Seed::of_index(seed, index);
    let mut time = match seed.below(4) {
        0 => 0,
        1 => LAST_CLOCK - seed.below(40),
        2 => 10u64.pow(seed.below(15) as u32) - 1,
        _ => seed.below(1 << 48),
    };
    let stay = seed.pick(&[2, 3, 12]);
    let mut lines: Vec<Vec<u8>> = Vec::new();
    for _ in 0..seed.below(30) {
        if seed.one_in(stay) {
            time = (time + seed.pick(&[1, 1, 2, 66, 1000, 123_456])).min(LAST_CLOCK);
        }
        let line = line_with(time, &frame(seed));
        lines.push(in_case(seed, &line).into_bytes());
    }
    for _ in 0..seed.pick(&[0, 1, 1, 2]) {
        damage_line(seed, &mut lines);
    }
    let text = lines.concat();
    let room = match seed.below(4) {
        0 => seed.below(80),
        1 => seed.below(30 * ENTRY as u64),
        _ => 30 * ENTRY as u64,
    };
    Try::Import(text, (0..room).map(|_| seed.byte()).collect())
}

/// Damages one of the lines, if there is one.
fn damage_line(seed: &mut Seed, lines: &mut Vec<Vec<u8>>) {
    if lines.is_empty() {
        return;
    }
    let at = seed.below(lines.len() as u64) as usize;
    let place = seed.below(lines[at].len() as u64 + 1) as usize;
    let last = lines[at].len().saturating_sub(1);
    match seed.below(12) {
        0 => lines[at].insert(place, seed.pick(b"0 \n\r\tg+1eE")),
        1 => {
            lines[at].truncate(place);
        }
        2 if place < lines[at].len() => lines[at][place] = seed.byte(),
        3 if place < lines[at].len() => {
            lines[at].remove(place);
        }
        4 => {
            let copy = lines[at].clone();
            for _ in 0..seed.between(1, 9) {
                lines.insert(at, copy.clone());
            }
        }
        5 => lines.swap(at, 0),
        6 => lines[at] = [seed.pick(&TIMES), &b" e5\n"[..]].concat(),
        7 => lines[at] = [&b"7 "[..], seed.pick(&FRAMES), b"\n"].concat(),
        8 => lines[at].insert(last, b'\r'),
        9 => lines[at].splice(last..last, *b"e5").for_each(drop),
        10 => {
            let end = lines.len() - 1;
            lines[end].pop();
        }
        _ => lines[at] = [seed.pick(&TIMES), seed.pick(&BETWEEN), seed.pick(&FRAMES), seed.pick(&ENDS)].concat(),
    }
}

/// A clock of any number of bits.
fn any_clock(seed: &mut Seed) -> u64 {
    let bits = seed.between(1, 48);
    seed.below(1 << bits)
}

/// Entries at random: commands, records with clocks that rise, stay and go back; one in three has something damaged.
fn entries_at_random(seed: u64, index: u64) -> Try {
    let seed = &mut Seed::of_index(!seed, index);
    let mut entries: Vec<Vec<u8>> = Vec::new();
    let mut clock = any_clock(seed);
    for _ in 0..seed.below(12) {
        if seed.one_in(5) {
            entries.push(vec![seed.below(3) as u8]);
            continue;
        }
        clock = match seed.below(8) {
            0 => clock.saturating_sub(seed.below(1000)),
            1 => clock,
            2 => any_clock(seed),
            _ => (clock + seed.below(1000)).min(LAST_CLOCK),
        };
        let some: Vec<Telegram> = (0..seed.below(MOST as u64 + 1)).map(|_| telegram(seed)).collect();
        let mut one = record(clock, &some);
        one.transmitting = seed.coin();
        one.pending = seed.below(2048) as u16;
        if seed.coin() {
            one.decisions = vec![(Decision::Declines, Decision::Declines)];
        }
        entries.push(one.entry());
    }
    if !entries.is_empty() && seed.one_in(3) {
        damage_entry(seed, &mut entries);
    }
    let room = match seed.below(3) {
        0 => seed.below(100),
        1 => seed.below(1500),
        _ => 3000,
    };
    Try::Export(entries.concat(), (0..room).map(|_| seed.byte()).collect())
}

/// Damages one of the entries.
fn damage_entry(seed: &mut Seed, entries: &mut Vec<Vec<u8>>) {
    let at = seed.below(entries.len() as u64) as usize;
    let place = seed.below(entries[at].len() as u64) as usize;
    match seed.below(6) {
        0 => entries[at][place] = seed.byte(),
        1 => entries[at][place] ^= 1 << seed.below(8),
        2 => {
            let end = entries.len() - 1;
            let place = seed.below(entries[end].len() as u64) as usize;
            entries[end].truncate(place);
        }
        3 => entries[at] = PollRecord::silent(7, seed.between(2, 8) as usize).entry(),
        4 => {
            let length = seed.between(3, 255) as usize;
            entries[at] = entry_of(&(0..length).map(|_| seed.byte()).collect::<Vec<u8>>());
        }
        _ => {
            let mut one = record(5, &[telegram(seed)]);
            one.decisions.push(one.decisions[0]);
            entries[at] = one.entry();
        }
    }
}

#[cfg(test)]
mod tests {
    use super::*;

    #[test]
    fn what_is_made_at_random_is_the_same_again() {
        assert_eq!(text_at_random(1, 7), text_at_random(1, 7));
        assert_ne!(text_at_random(1, 7), text_at_random(1, 8));
        assert_eq!(entries_at_random(1, 7), entries_at_random(1, 7));
        assert_ne!(entries_at_random(1, 7), entries_at_random(2, 7));
    }

    #[test]
    fn short_texts_are_all_there_once() {
        let all: std::collections::BTreeSet<Vec<u8>> = (0..=3).flat_map(over_alphabet).collect();
        assert_eq!(all.len(), 1 + 9 + 81 + 729);
    }
}
