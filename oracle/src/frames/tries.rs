//! What is tried: every short frame over an alphabet, longer frames whole and damaged, and words with room to write them.

use super::frame::{check_byte, framed, END, LENGTHS, SC, SD1, SD2, SD3, SD3_DATA, SD4, STATUS_REQUEST};
use crate::comparison::calls::Parts;
use crate::generator::Seed;
use crate::records::{join, TELEGRAM};

/// One call: a frame to read, or a word to write into a buffer that holds these bytes.
#[derive(Debug, Clone, PartialEq, Eq)]
pub enum Try {
    Read(Vec<u8>),
    Write(u32, Vec<u8>),
}

/// The bytes of the short frames: the start bytes and the end byte; an address at each border; the function codes of the
/// status request, of other requests, of responses, and one with its top bit set.
pub const ALPHABET: [u8; 13] = [SD1, SD2, SD3, SD4, SC, END, 0x00, 0x7f, 0x80, STATUS_REQUEST, 0x59, 0x40, 0x30];

/// The longest of the short frames.
const SHORT: usize = 6;

/// Addresses at the borders, with and without the extension bit.
const ADDRESSES: [u8; 10] = [0, 1, 5, 9, 125, 126, 127, 128, 254, 255];

/// Function codes at the borders.
const CODES: [u8; 14] = [0x00, 0x0f, 0x10, 0x30, 0x3f, 0x40, 0x48, STATUS_REQUEST, 0x4a, 0x59, 0x69, 0x79, 0x80, 0xff];

/// What buffers are filled with.
const FILL: u8 = 0xa5;

/// All that is tried, in parts with their names; so many frames, and a tenth as many words, are made at random.
pub fn parts(seed: u64, count: u64) -> Parts<Try> {
    vec![
        ("words to write", Box::new(words().chain((0..count / 10).map(move |i| word_at_random(seed, i))))),
        ("frames of each length and damage", Box::new(in_ranges().chain(each_damage()).map(Try::Read))),
        ("short frames", Box::new((0..=SHORT).flat_map(short).map(Try::Read))),
        ("frames made at random", Box::new((0..count).map(move |i| Try::Read(at_random(seed, i))))),
    ]
}

/// Every frame of so many bytes over the alphabet. In the fifth place, where SD1 has its check byte, the sum of the three
/// bytes before it stands as well, so that whole frames are among them.
fn short(length: usize) -> impl Iterator<Item = Vec<u8>> {
    let letters = ALPHABET.len();
    (0..letters.pow(length as u32)).flat_map(move |number| {
        let mut rest = number;
        let mut frame = Vec::with_capacity(length);
        for _ in 0..length {
            frame.push(ALPHABET[rest % letters]);
            rest /= letters;
        }
        // once for each frame that differs in the fifth place alone
        let summed = match frame.get(4) {
            Some(&fifth) if fifth == ALPHABET[0] => {
                let check = check_byte(&frame[1..4]);
                let mut summed = frame.clone();
                summed[4] = check;
                (!ALPHABET.contains(&check)).then_some(summed)
            }
            _ => None,
        };
        [Some(frame), summed].into_iter().flatten()
    })
}

/// Every token; every destination and function code in SD1 with sources at the borders.
fn in_ranges() -> impl Iterator<Item = Vec<u8>> {
    let tokens = (0..=255).flat_map(|a| (0..=255).map(move |b| vec![SD4, a, b]));
    let others = ADDRESSES.into_iter().flat_map(|source| {
        (0..=255).flat_map(move |destination| (0..=255).map(move |code| framed(&[SD1], &[destination, source, code])))
    });
    tokens.chain(others)
}

/// A frame of SD2 with so many bytes from the destination to the last data byte, of any length that a byte can say.
fn with_length(length: u8, body: impl Fn(usize) -> u8) -> Vec<u8> {
    let body: Vec<u8> = (0..length.into()).map(body).collect();
    framed(&[SD2, length, length, SD2], &body)
}

/// One frame of each start byte.
fn samples() -> Vec<Vec<u8>> {
    let body: Vec<u8> = (0..3 + SD3_DATA as u8).map(|i| 5 + 3 * i).collect();
    vec![
        framed(&[SD1], &[5, 9, STATUS_REQUEST]),
        framed(&[SD3], &body),
        with_length(6, |i| 7 * i as u8 + 9),
        vec![SD4, 5, 9],
        vec![SC],
    ]
}

/// A frame of SD2 of every length that a byte can say: whole, cut at every place, with each byte changed, with each byte
/// changed and the check byte made right, with the second length differing by one. A frame of each start byte cut at every
/// place and with bytes after it, and with each byte given every value. Every function code in SD2 and SD3, also with both
/// extension bits.
fn each_damage() -> impl Iterator<Item = Vec<u8>> {
    let long = (0..=255).flat_map(|length| {
        let whole = with_length(length, |place| (11 * place + 5) as u8 % 128);
        let cuts = (0..=whole.len()).map(|end| whole[..end].to_vec());
        let changed = (0..whole.len()).flat_map(|place| {
            let mut frame = whole.clone();
            frame[place] = frame[place].wrapping_add(1 + (place % 5) as u8);
            [frame.clone(), repaired(frame)]
        });
        let mut differing = whole.clone();
        differing[2] = length.wrapping_add(1);
        cuts.chain(changed).chain([differing]).collect::<Vec<_>>()
    });
    let cut = samples().into_iter().flat_map(|whole| {
        let longer = [&whole[..], &[END, 0xff]].concat();
        (0..=longer.len()).map(move |end| longer[..end].to_vec())
    });
    let valued = samples().into_iter().flat_map(|whole| {
        (0..whole.len()).flat_map(move |place| {
            let whole = whole.clone();
            (0..=255).flat_map(move |value| {
                let mut frame = whole.clone();
                frame[place] = value;
                [frame.clone(), repaired(frame)]
            })
        })
    });
    let coded = (0..=255).flat_map(|code| {
        [(1, 2), (129, 130)].into_iter().flat_map(move |(destination, source)| {
            let mut body = vec![destination, source, code];
            body.extend([0; SD3_DATA]);
            [framed(&[SD3], &body), framed(&[SD2, 11, 11, SD2], &body)]
        })
    });
    long.chain(cut).chain(valued).chain(coded)
}

/// Where the bytes from the destination to the last data byte stand in a whole frame, by its start byte and length.
fn body_of(frame: &[u8]) -> Option<std::ops::Range<usize>> {
    let before = match *frame.first()? {
        SD1 | SD3 => 1,
        SD2 => 4,
        _ => return None,
    };
    let end = frame.len().checked_sub(2)?;
    (before <= end).then_some(before..end)
}

/// The frame with the check byte that its bytes call for, if it has one.
fn repaired(mut frame: Vec<u8>) -> Vec<u8> {
    if let Some(body) = body_of(&frame) {
        let check = check_byte(&frame[body.clone()]);
        frame[body.end] = check;
    }
    frame
}

/// A good frame: most often a long one.
fn good(seed: &mut Seed) -> Vec<u8> {
    let lengths = (*LENGTHS.start() as u64, *LENGTHS.end() as u64);
    let (before, length) = match seed.below(8) {
        0 => (vec![SD1], 3),
        1 | 2 => (vec![SD3], 3 + SD3_DATA),
        3 => return vec![SD4, seed.byte() % 128, seed.byte() % 128],
        4 => return vec![SC],
        _ => {
            let length =
                if seed.one_in(4) { seed.pick(&[4, 5, 6, 248, 249]) } else { seed.between(lengths.0, lengths.1) };
            (vec![SD2, length as u8, length as u8, SD2], length as usize)
        }
    };
    let mut body: Vec<u8> = (0..length).map(|_| seed.byte()).collect();
    for address in [0, 1] {
        body[address] = if seed.coin() { seed.pick(&ADDRESSES[..7]) } else { seed.byte() % 128 };
    }
    body[2] = if seed.coin() { seed.pick(&CODES[..12]) } else { seed.byte() % 128 };
    framed(&before, &body)
}

/// A frame made at random: one in five is whole, one in five damaged twice, the others once.
pub fn at_random(seed: u64, index: u64) -> Vec<u8> {
    let seed = &mut Seed::of_index(seed, index);
    let mut frame = good(seed);
    let damages = seed.pick(&[0, 1, 1, 1, 2]);
    for _ in 0..damages {
        frame = damaged(seed, frame);
    }
    if seed.one_in(3) {
        let count = seed.between(1, 12);
        frame.extend((0..count).map(|_| seed.byte()));
    }
    frame
}

fn damaged(seed: &mut Seed, mut frame: Vec<u8>) -> Vec<u8> {
    if frame.is_empty() {
        return frame;
    }
    let last = frame.len() - 1;
    let place = seed.below(frame.len() as u64) as usize;
    match seed.below(12) {
        // cut anywhere, or one or two bytes short
        0 => frame.truncate(place),
        1 => frame.truncate(last.saturating_sub(seed.below(2) as usize)),
        // one byte changed: anywhere, and again with a right check byte
        2 => frame[place] = seed.byte(),
        3 => {
            frame[place] ^= seed.pick(&[1, 2, 4, 8, 16, 32, 64, 128]);
            frame = repaired(frame);
        }
        // check byte and end byte
        4 => frame[last] = seed.pick(&[0, 0x15, 0x17, END ^ 128, SD2]),
        5 => frame[last.saturating_sub(1)] = frame[last.saturating_sub(1)].wrapping_add(seed.pick(&[1, 255, 128, SD2])),
        // a check byte that leaves the destination out, or takes the byte before it in
        6 => {
            if let Some(body) = body_of(&frame) {
                let from = seed.pick(&[body.start - 1, body.start + 1]).min(body.end);
                frame[body.end] = check_byte(&frame[from..body.end]);
            }
        }
        // two bytes exchanged, which keeps the sum
        7 => frame.swap(place, seed.below(last as u64 + 1) as usize),
        // the extension bit or the top bit of the function code, with a right check byte
        8 => {
            let before = if frame[0] == SD2 { 4 } else { 1 };
            let at = before + seed.below(3) as usize;
            if at <= last {
                frame[at] = frame[at] % 128 + 128;
            }
            frame = repaired(frame);
        }
        // the header of SD2
        9 => {
            let at = seed.between(1, 3) as usize;
            if at <= last {
                frame[at] = if seed.coin() { seed.byte() } else { frame[at].wrapping_add(seed.pick(&[1, 255])) };
            }
        }
        // lengths around the borders, both bytes alike
        10 => {
            if frame[0] == SD2 && last >= 3 {
                let length = seed.pick(&[0, 1, 2, 3, 4, 249, 250, 251, 255]);
                frame[1] = length;
                frame[2] = length;
            }
        }
        // another start byte
        _ => frame[0] = seed.pick(&[SD1, SD2, SD3, SD4, SC, END, 0x00, 0x69, 0xff]),
    }
    frame
}

/// Words of every kind with each field at its borders and each bit of the last nine alone, and room for 0 to 8 bytes and
/// for many.
fn words() -> impl Iterator<Item = Try> {
    let mut words = Vec::new();
    let zeros: Vec<u64> = [0].into_iter().chain((0..9).map(|bit| 1 << bit)).collect();
    for kind in 0..4 {
        for destination in [0, 1, 125, 126, 127] {
            for source in [0, 1, 125, 126, 127] {
                for status_request in 0..2 {
                    for code in 0..64 {
                        for zero in &zeros {
                            let fields = [kind, destination, source, status_request, code / 16, code % 16, *zero];
                            // every status where no bit is set that belongs to none, else those at the borders
                            if *zero == 0 || [0, 1, 8, 15].contains(&(code % 16)) {
                                let bytes = join(TELEGRAM, fields);
                                words.push(bytes.iter().fold(0, |word, byte| 256 * word + u32::from(*byte)));
                            }
                        }
                    }
                }
            }
        }
    }
    words.into_iter().flat_map(|word| (0..=8).chain([40]).map(move |room| Try::Write(word, vec![FILL; room])))
}

/// Any word with any room: half of the words are good, a quarter good but for one bit.
fn word_at_random(seed: u64, index: u64) -> Try {
    let seed = &mut Seed::of_index(!seed, index);
    let room = if seed.coin() { seed.below(9) } else { seed.below(300) };
    let fields = match seed.below(4) {
        0 => [0, seed.below(128), seed.below(128), 0, 0, 0, 0],
        1 => [1, 0, 0, 0, 0, 0, 0],
        2 => [2, seed.below(128), seed.below(128), seed.below(2), 0, 0, 0],
        _ => [3, seed.below(128), seed.below(128), 0, seed.below(4), seed.below(16), 0],
    };
    let good = join(TELEGRAM, fields).iter().fold(0, |word, byte| 256 * word + u32::from(*byte));
    let word = match seed.below(4) {
        0 | 1 => good,
        2 => good ^ 1 << seed.below(32),
        _ => seed.word() as u32,
    };
    Try::Write(word, (0..room).map(|_| seed.byte()).collect())
}

#[cfg(test)]
mod tests {
    use super::*;

    /// 13 letters a place, and in the fifth place the sums that are no letters: each frame once.
    #[test]
    fn short_frames_are_all_there_once() {
        for (length, count) in [(0, 1), (1, 13), (2, 169), (3, 2197), (4, 28_561)] {
            let all: std::collections::BTreeSet<Vec<u8>> = short(length).collect();
            assert_eq!((all.len(), short(length).count()), (count, count));
        }
        let five: std::collections::BTreeSet<Vec<u8>> = short(5).collect();
        assert_eq!(five.len(), short(5).count());
        assert!(five.len() > 13 * 28_561 && five.len() <= 14 * 28_561);
        assert!(five.contains(&[SD1, 0x7f, 0x59, 0x30, 0x08][..]));
    }

    #[test]
    fn a_frame_at_random_is_the_same_again() {
        assert_eq!(at_random(1, 7), at_random(1, 7));
        assert_ne!(at_random(1, 7), at_random(2, 7));
        assert_ne!(at_random(1, 7), at_random(1, 8));
    }
}
