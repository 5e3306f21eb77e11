//! Document 02, P9, "A shorter trace header, old ones kept": the two editions of a header, which of them a trace has, and the
//! call that moves a header to the other one.

use crate::records::{join, split};
use crate::trace::Header;

/// "Edition 2 starts with byte 82h, which no edition 1 header has as its address".
pub const SECOND: u8 = 0x82;

/// Document 01: "address 8, baud 8, slot 16, rotation 32, gap 8, HSA 8, retry 8, min Tsdr 8, applications 8, factors 8 + 8
/// (both zero or neither), zero 8".
const FIRST_WIDTHS: [usize; 12] = [8, 8, 16, 32, 8, 8, 8, 8, 8, 8, 8, 8];

/// "byte 82h .. and then packs address 7, baud 4, slot 16, rotation 25, gap 7, HSA 7, retry 4, min Tsdr 8, applications less
/// one 3, both factors 16, zero 7: 14 bytes in all".
const SECOND_WIDTHS: [usize; 13] = [8, 7, 4, 16, 25, 7, 7, 4, 8, 3, 8, 8, 7];

/// The editions of a header.
#[derive(Debug, Clone, Copy, PartialEq, Eq)]
pub enum Edition {
    First,
    Second,
}

impl Edition {
    /// The first byte decides: 82h is edition 2, anything else edition 1, and so is a trace that has none.
    pub fn of(trace: &[u8]) -> Edition {
        match trace.first() {
            Some(&SECOND) => Edition::Second,
            _ => Edition::First,
        }
    }

    /// The length of a header in bytes.
    pub fn length(self) -> usize {
        match self {
            Edition::First => 16,
            Edition::Second => 14,
        }
    }

    pub fn other(self) -> Edition {
        match self {
            Edition::First => Edition::Second,
            Edition::Second => Edition::First,
        }
    }
}

impl Header {
    /// The header that a trace starts with, each field as given; `None` if the trace ends inside it.
    pub fn read(trace: &[u8]) -> Option<Header> {
        let edition = Edition::of(trace);
        let bytes = trace.get(..edition.length())?;
        let fields = match edition {
            Edition::First => split(FIRST_WIDTHS, bytes),
            Edition::Second => {
                let [_, address, baud, slot, rotation, gap, hsa, retry, min_tsdr, less_one, f1, f2, zero] =
                    split(SECOND_WIDTHS, bytes);
                [address, baud, slot, rotation, gap, hsa, retry, min_tsdr, less_one + 1, f1, f2, zero]
            }
        };
        let [address, baud, slot, rotation, gap, hsa, retry, min_tsdr, applications, f1, f2, zero] = fields;
        Some(Header {
            address: address as u8,
            baud: baud as u8,
            slot: slot as u16,
            rotation: rotation as u32,
            gap: gap as u8,
            hsa: hsa as u8,
            retry: retry as u8,
            min_tsdr: min_tsdr as u8,
            applications: applications as u8,
            factors: (f1 as u8, f2 as u8),
            zero: zero as u8,
        })
    }

    /// The header's bytes in edition 1.
    pub fn write(&self) -> Vec<u8> {
        self.write_as(Edition::First)
    }

    /// The header's bytes in an edition whose fields have room for it. Edition 2 has for every header that is accepted.
    pub fn write_as(&self, edition: Edition) -> Vec<u8> {
        let [address, baud, gap, hsa, retry, min_tsdr, applications, f1, f2, zero] = [
            self.address,
            self.baud,
            self.gap,
            self.hsa,
            self.retry,
            self.min_tsdr,
            self.applications,
            self.factors.0,
            self.factors.1,
            self.zero,
        ]
        .map(u64::from);
        let (slot, rotation) = (self.slot.into(), self.rotation.into());
        match edition {
            Edition::First => {
                let fields = [address, baud, slot, rotation, gap, hsa, retry, min_tsdr, applications, f1, f2, zero];
                join(FIRST_WIDTHS, fields)
            }
            Edition::Second => {
                let (first, less_one) = (SECOND.into(), applications - 1);
                let fields = [first, address, baud, slot, rotation, gap, hsa, retry, min_tsdr, less_one, f1, f2, zero];
                join(SECOND_WIDTHS, fields)
            }
        }
    }
}

/// Moves the header at the start of `header` to the other edition: "bytes written × 256 + number". 17 where the slice is
/// shorter than its edition's header, then the header's numbers, then 18; what is refused writes nothing.
pub fn other_edition(header: &[u8], out: &mut [u8]) -> u64 {
    let (written, number) = moved(header, out);
    written as u64 * 256 + u64::from(number)
}

/// The bytes written, and the number.
fn moved(header: &[u8], out: &mut [u8]) -> (usize, u8) {
    let given = match Header::read(header) {
        Some(given) => given,
        None => return (0, 17),
    };
    if let Some(number) = given.refusal() {
        return (0, number);
    }
    let bytes = given.write_as(Edition::of(header).other());
    if out.len() < bytes.len() {
        return (0, 18);
    }
    out[..bytes.len()].copy_from_slice(&bytes);
    (bytes.len(), 0)
}
