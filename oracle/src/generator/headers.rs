//! Headers: accepted ones, and ones with a field at the edge of its range or beyond.

use super::seed::Seed;
use crate::baud::LEAST_SLOT_BITS;
use crate::editions::Edition;
use crate::ring::LAST;
use crate::trace::{least_rotation, Header};

/// A header that is accepted.
pub fn good_header(seed: &mut Seed) -> Header {
    let address = match seed.below(8) {
        0 => 0,
        1 => LAST,
        _ => seed.below(126) as u8,
    };
    let baud = seed.below(11) as u8;
    let least = LEAST_SLOT_BITS[usize::from(baud)];
    let slot = match seed.below(6) {
        0 => 65535,
        1 => seed.between(least.into(), 65535) as u16,
        2 | 3 => seed.between(least.into(), 2 * u64::from(least)) as u16,
        _ => least,
    };
    let shortest = shortest_rotation(slot);
    let rotation = match seed.below(6) {
        0 => 16_777_960,
        1 => shortest,
        2 => seed.between(shortest.into(), 16_777_960) as u32,
        3 => shortest.max(32436),
        _ => seed.between(shortest.into(), u64::from(shortest) + 6000) as u32,
    };
    let hsa = match seed.below(4) {
        0 => address + 1,
        1 => seed.between(u64::from(address) + 1, 126) as u8,
        _ => 126,
    };
    Header {
        address,
        baud,
        slot,
        rotation,
        gap: seed.pick(&[1, 1, 1, 2, 2, 3, 10, 100]),
        hsa,
        retry: seed.between(1, 15) as u8,
        min_tsdr: seed.pick(&[11, 11, 60, 255]),
        applications: seed.pick(&[1, 1, 1, 2, 2, 3, 4, 5, 6, 7, 8, 8]),
        factors: seed.pick(&[(0, 0), (0, 0), (1, 1), (255, 255), (4, 250)]),
        zero: 0,
    }
}

/// The shortest rotation that is accepted with this slot.
fn shortest_rotation(slot: u16) -> u32 {
    least_rotation(slot).max(256)
}

/// The number of fields, and the places of some among them, in the order in which document 01 checks them.
const FIELDS: u64 = 11;
const SLOT: u64 = 2;
const ROTATION: u64 = 4;
const APPLICATIONS: u64 = 8;

/// Puts one field at or beyond the edge of its range, or two neighbouring ones beyond theirs, or the rotation at or below the
/// edge of its room for a gap poll.
pub fn edge_header(seed: &mut Seed, edition: Edition, header: &mut Header) {
    match seed.below(6) {
        0..=2 => {
            // the slot has an edge for each baud code
            let field = if seed.one_in(3) { SLOT } else { seed.below(FIELDS) };
            let beyond = seed.coin();
            edge_field(seed, header, field, beyond);
        }
        3 | 4 => {
            let first = seed.below(FIELDS - 1);
            // without a baud rate there is no least slot
            let second = if first + 1 == SLOT { SLOT + 1 } else { first + 1 };
            // edition 2 has no number of applications that is bad
            let second = if edition == Edition::Second && second == APPLICATIONS { second + 1 } else { second };
            edge_field(seed, header, first, true);
            edge_field(seed, header, second, true);
        }
        _ => edge_room(seed, header),
    }
    if edition == Edition::Second {
        *header = fitted(header);
    }
}

/// The header with no field above what edition 2 has bits for: the largest of these in its place, and 0 for a retry.
fn fitted(header: &Header) -> Header {
    Header {
        address: header.address.min(127),
        baud: header.baud.min(15),
        rotation: header.rotation.min((1 << 25) - 1),
        gap: header.gap.min(127),
        hsa: header.hsa.min(127),
        retry: if header.retry > 15 { 0 } else { header.retry },
        applications: header.applications.clamp(1, 8),
        zero: header.zero.min(127),
        ..*header
    }
}

/// A rotation with just enough room for a gap poll, or with less, alone or with a fault of another field.
fn edge_room(seed: &mut Seed, header: &mut Header) {
    match seed.below(3) {
        // the least rotation of all, 256, has room for a slot of 156
        0 => {
            header.baud = seed.below(6) as u8;
            header.slot = seed.pick(&[156, 157]);
        }
        // from 65,436 on the sum does not fit into 16 bits
        1 => header.slot = seed.pick(&[65435, 65436, 65535]),
        _ => header.slot = header.slot.max(157),
    }
    match seed.below(3) {
        0 => header.rotation = least_rotation(header.slot) + seed.pick(&[0, 0, 1]),
        1 => header.rotation = short_rotation(seed, header.slot),
        _ => {
            let field = seed.below(FIELDS);
            if field == SLOT {
                // from this code on a slot can be too small and yet larger than 156
                header.baud = seed.between(6, 10) as u8;
                header.slot = LEAST_SLOT_BITS[usize::from(header.baud)] - 1;
            } else {
                edge_field(seed, header, field, true);
            }
            let too_short = field == ROTATION;
            header.rotation = if too_short { seed.pick(&[0, 255]) } else { short_rotation(seed, header.slot) };
        }
    }
}

/// A rotation without room for a gap poll.
fn short_rotation(seed: &mut Seed, slot: u16) -> u32 {
    let longest = least_rotation(slot) - 1;
    seed.pick(&[longest, longest, 256.min(longest)])
}

/// One field at the edge of its range, or beyond it.
fn edge_field(seed: &mut Seed, header: &mut Header, field: u64, beyond: bool) {
    let mut of = |inside: &[u32], outside: &[u32]| seed.pick(if beyond { outside } else { inside });
    let own = u32::from(header.address);
    match field {
        0 => {
            header.address = of(&[0, 125], &[126, 127, 128, 129, 131, 255]) as u8;
            if !beyond {
                header.hsa = 126;
            }
        }
        1 => {
            header.baud = of(&[0, 10], &[11, 12, 255]) as u8;
            if !beyond {
                header.slot = header.slot.max(1000);
                header.rotation = header.rotation.max(shortest_rotation(header.slot));
            }
        }
        SLOT => {
            let least = u32::from(LEAST_SLOT_BITS[usize::from(header.baud.min(10))]);
            header.slot = of(&[least, least, least + 1, 65535], &[least - 1, least - 1, 0]) as u16;
            header.rotation = header.rotation.max(shortest_rotation(header.slot));
        }
        3 => header.hsa = of(&[own + 1, 126], &[0, own, own, 127, 127, 255]) as u8,
        ROTATION => {
            let shortest = shortest_rotation(header.slot);
            header.rotation = of(&[shortest, 16_777_960], &[0, 255, 16_777_961, u32::MAX]);
        }
        5 => header.gap = of(&[1, 100], &[0, 101, 255]) as u8,
        6 => header.retry = of(&[1, 15], &[0, 16, 255]) as u8,
        7 => header.min_tsdr = of(&[11, 255], &[0, 10]) as u8,
        APPLICATIONS => header.applications = of(&[1, 8], &[0, 9, 255]) as u8,
        9 => {
            let factors = of(&[0x0000, 0x01ff, 0xffff], &[0x0001, 0x0100, 0x00ff, 0xff00]);
            header.factors = ((factors / 256) as u8, (factors % 256) as u8);
        }
        _ => header.zero = of(&[0], &[1, 64, 128, 255]) as u8,
    }
}
