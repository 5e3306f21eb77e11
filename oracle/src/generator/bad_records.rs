//! Records that are refused with 12 to 15: wrong lengths and counts, bits that should be zero, sends of no byte, and two
//! faults of which the first counts.

use super::seed::Seed;
use crate::records::{join, split, PollRecord, Telegram, DECISION, HEAD, TELEGRAM};

/// The bytes of a record like this one that is bad in some way.
pub fn bad_record(seed: &mut Seed, record: &PollRecord) -> Vec<u8> {
    let mut bytes = record.encode();
    let decisions = 2 * record.decisions.len();
    match seed.below(8) {
        // 12: cut off, or longer; by one byte often
        0 => {
            let left = seed.between(3, bytes.len() as u64 - 1) as usize;
            bytes.truncate(if seed.one_in(3) { bytes.len() - 1 } else { left });
        }
        1 => {
            let more = if seed.coin() { 1 } else { seed.between(2, 8) };
            (0..more).for_each(|_| bytes.push(seed.byte()));
        }
        // 12: under 8 bytes, whatever count there is
        2 => {
            bytes[6] = seed.byte();
            bytes.truncate(seed.pick(&[3, 4, 5, 6, 7, 7, 7]));
        }
        // 13: a count of 9 to 15, with as many telegrams or without
        3 => {
            let [clock, transmitting, _, pending] = split(HEAD, &bytes[..8]);
            let count = seed.pick(&[9, 9, 10, 11, 12, 13, 14, 15]);
            bytes[..8].copy_from_slice(&join(HEAD, [clock, transmitting, count, pending]));
            if seed.coin() {
                bytes.resize(8 + 3 * decisions + 4 * count as usize, 0);
            }
        }
        // 14: a bit of a telegram that should be zero
        4 if !record.telegrams.is_empty() => bad_telegram(seed, record, &mut bytes),
        // 14 or 15 in one decision, or also in a later one or in a telegram
        5 => {
            let first = seed.below(decisions as u64) as usize;
            bad_decision(seed, &mut bytes, first);
            if record.telegrams.is_empty() || seed.coin() {
                let second = seed.between(first as u64, decisions as u64 - 1) as usize;
                bad_decision(seed, &mut bytes, second);
            } else {
                bad_telegram(seed, record, &mut bytes);
            }
        }
        _ => {
            let one = seed.below(decisions as u64) as usize;
            bad_decision(seed, &mut bytes, one);
        }
    }
    bytes
}

/// A decision that is refused, by one rule or by two.
fn bad_decision(seed: &mut Seed, bytes: &mut [u8], decision: usize) {
    let place = 8 + 3 * decision..8 + 3 * decision + 3;
    let address = seed.pick(&[1, 2, 64, 126, 127]);
    let length = seed.pick(&[1, 128, 255]);
    let bit = 1 << seed.below(7);
    let [sends, expects_reply, reply_address, old_length, _] = split(DECISION, &bytes[place.clone()]);
    let fields = match seed.below(9) {
        0 => [sends, expects_reply, reply_address, old_length, bit],
        1 => [0, 1, 0, 0, 0],
        2 => [0, 0, address, 0, 0],
        3 => [0, 0, 0, length, 0],
        4 => [1, 0, address, length, 0],
        5 => [1, 0, 0, 0, 0],
        6 => [1, 1, address, 0, 0],
        7 => [1, 0, 0, 0, bit],
        _ => [1, 0, address, 0, 0],
    };
    bytes[place].copy_from_slice(&join(DECISION, fields));
}

/// Sets a bit of a telegram that should be zero; the last telegram often.
fn bad_telegram(seed: &mut Seed, record: &PollRecord, bytes: &mut [u8]) {
    let count = record.telegrams.len();
    let which = if seed.coin() { count - 1 } else { seed.below(count as u64) as usize };
    let start = bytes.len() - 4 * (count - which);
    let word = &mut bytes[start..start + 4];
    let mut fields = split(TELEGRAM, word);
    loop {
        let field = seed.between(1, 6) as usize;
        let old = fields[field];
        fields[field] = if seed.coin() { 1 } else { seed.between(1, (1 << TELEGRAM[field]) - 1) };
        let tried = join(TELEGRAM, fields);
        if Telegram::decode(&tried).is_none() {
            word.copy_from_slice(&tried);
            return;
        }
        fields[field] = old;
    }
}
