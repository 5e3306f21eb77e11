//! Whole traces: a header, entries that follow a station, and now and then something cut, damaged or too small.

use super::entries::Maker;
use super::headers::{edge_header, good_header};
use super::seed::Seed;
use crate::editions::{Edition, SECOND};
use crate::trace::{Trace, ANSWER};

/// What kinds of traces are made.
#[derive(Debug, Clone, Copy, PartialEq, Eq)]
enum Kind {
    /// A good header and mostly good entries.
    Whole,
    /// Cut off somewhere.
    Cut,
    /// Some bytes changed.
    Damaged,
    /// A header with one or two faults, or with a value at the edge of its range.
    Edge,
    /// An answer buffer that is too small, or just large enough.
    Small,
    /// A header under the first byte of the other edition, or under one that no header has.
    Mixed,
}

/// The trace with this index. The seed gives the same traces on every machine.
pub fn trace(seed: u64, index: u64) -> Trace {
    let mut seed = Seed::of_index(seed, index);
    let kind = match seed.below(20) {
        0 => Kind::Cut,
        1 => Kind::Damaged,
        2 => Kind::Small,
        3..=7 => Kind::Edge,
        8 => Kind::Mixed,
        _ => Kind::Whole,
    };
    let edition = if seed.coin() { Edition::Second } else { Edition::First };
    let mut header = good_header(&mut seed);
    if kind == Kind::Edge {
        edge_header(&mut seed, edition, &mut header);
    }
    // few addresses below HSA, so that the gap walk of a lone station comes to its end
    if kind == Kind::Whole && index % 64 == 63 {
        header.address %= 4;
        header.hsa = header.address + 1;
        header.gap = 1;
    }
    let length = if kind == Kind::Whole { seed.pick(&[20, 60, 100, 150]) } else { seed.between(0, 30) };
    let fill = seed.pick(&[0x00, 0xff, 0xa5, 0x5a]);
    let mut made = Trace { header: header.write_as(edition), entries: Vec::new(), room: 0, fill };
    if header.refusal().is_none() {
        let mut maker = Maker::new(seed, header);
        made.entries = (0..length).map(|_| maker.next_entry()).collect();
        seed = maker.seed;
    }
    let full = ANSWER * made.entries.len();
    made.room = full + seed.below(20) as usize;
    match kind {
        Kind::Cut => cut(&mut seed, &mut made),
        Kind::Damaged => (0..seed.between(1, 3)).for_each(|_| damage(&mut seed, &mut made)),
        Kind::Small => made.room = seed.below((full + ANSWER) as u64) as usize,
        Kind::Mixed => mix(&mut seed, &mut made),
        Kind::Whole | Kind::Edge => {}
    }
    made
}

/// Cuts the trace off: in the header, or in or between entries.
fn cut(seed: &mut Seed, made: &mut Trace) {
    if seed.one_in(4) || made.entries.is_empty() {
        made.header.truncate(seed.below(made.header.len() as u64) as usize);
        made.entries.clear();
        return;
    }
    let left = seed.between(1, made.entries.len() as u64) as usize;
    made.entries.truncate(left);
    let last = &mut made.entries[left - 1];
    if seed.one_in(5) {
        // a record of under 8 bytes, or none but its length
        *last = vec![seed.between(3, 8) as u8];
        last.resize(1 + seed.below(4) as usize, 0);
    } else {
        last.truncate(seed.between(1, last.len() as u64) as usize);
    }
    if seed.one_in(8) {
        made.room = seed.below((ANSWER * left) as u64) as usize;
    }
}

/// Gives the trace another first byte: that of edition 2, one of edition 1, or one that no header has. Half of the traces then
/// end near the lengths of the two editions' headers.
fn mix(seed: &mut Seed, made: &mut Trace) {
    made.header[0] = match seed.below(5) {
        0 => SECOND,
        1 => seed.below(126) as u8,
        2 => seed.pick(&[126, 127]),
        3 => seed.pick(&[128, 129, 131, 255]),
        _ => seed.between(128, 255) as u8,
    };
    if seed.coin() {
        made.entries.clear();
        made.header.resize(seed.between(12, 17) as usize, seed.below(4) as u8);
    }
}

/// Changes one byte, or takes one out, or puts one in.
fn damage(seed: &mut Seed, made: &mut Trace) {
    let entries = made.entries.len();
    let part = match seed.below(entries as u64 + 1) as usize {
        0 if entries == 0 || seed.coin() => &mut made.header,
        0 => &mut made.entries[0],
        i => &mut made.entries[i - 1],
    };
    if part.is_empty() {
        return;
    }
    let at = seed.below(part.len() as u64) as usize;
    match seed.below(4) {
        0 => part[at] = seed.byte(),
        1 => part[at] ^= 1 << seed.below(8),
        2 => drop(part.remove(at)),
        _ => part.insert(at, seed.byte()),
    }
}

#[cfg(test)]
mod tests {
    use super::*;
    use crate::trace::Header;

    #[test]
    fn a_trace_can_be_made_again() {
        for index in 0..50 {
            assert_eq!(trace(3, index), trace(3, index));
        }
        assert_ne!(trace(3, 0), trace(3, 1));
        assert_ne!(trace(3, 0), trace(4, 0));
    }

    #[test]
    fn generated_headers_are_accepted() {
        let mut seed = Seed::new(2);
        for _ in 0..1000 {
            let header = good_header(&mut seed);
            for edition in [Edition::First, Edition::Second] {
                assert_eq!(Header::accepted(&header.write_as(edition)), Some(header));
            }
        }
    }
}
