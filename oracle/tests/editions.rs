//! Document 02, P9: headers of edition 2 against bits stated by hand, the order of their refusals, and the call that moves a
//! header to the other edition.

use oracle::comparison::compare::compare_traces;
use oracle::comparison::hex;
use oracle::comparison::run::{Call, Calls, ORACLE};
use oracle::editions::{other_edition, Edition};
use oracle::generator::trace;
use oracle::trace::{replay_trace, Header, ANSWER};

/// The bytes that hexadecimal digits give; blanks are left out.
fn bytes(digits: &str) -> Vec<u8> {
    let digits: String = digits.split_whitespace().collect();
    (0..digits.len() / 2).map(|i| u8::from_str_radix(&digits[2 * i..2 * i + 2], 16).expect("digits")).collect()
}

/// The bytes that binary digits give; blanks are left out.
fn bits(digits: &str) -> Vec<u8> {
    let digits: Vec<char> = digits.chars().filter(|c| !c.is_whitespace()).collect();
    digits.chunks(8).map(|byte| byte.iter().fold(0, |value, bit| 2 * value + u8::from(*bit == '1'))).collect()
}

/// Headers in edition 1, field by field in bits, and in edition 2. The bits of a field are its number in binary with as many
/// digits as document 02 gives it; the bytes are these digits, eight by eight.
const BY_HAND: [(&str, &str, &str); 3] = [
    // Example 12. 5, 6, 200 = c8h, 32436 = 7eb4h, 10, 126, 1, 11, 1 - 1, none.
    (
        "05 06 00c8 00007eb4 0a 7e 01 0b 01 00 00 00",
        "10000010 0000101 0110 0000000011001000 0000000000111111010110100 0001010 1111110 0001 00001011 000 \
         00000000 00000000 0000000",
        "82 0a c0 19 00 07 eb 41 5f 84 2c 00 00 00",
    ),
    // Each field at the end of its range. 125, 10, 1000 = 3e8h, 16777960 = 10002e8h, 100, 126, 15, 255, 8 - 1, 255 and 255.
    (
        "7d 0a 03e8 010002e8 64 7e 0f ff 08 ff ff 00",
        "10000010 1111101 1010 0000001111101000 1000000000000001011101000 1100100 1111110 1111 11111111 111 \
         11111111 11111111 0000000",
        "82 fb 40 7d 10 00 2e 8c 9f bf ff ff ff 80",
    ),
    // No two fields alike. 2, 0, 65535, 65636 = 10064h, 1, 3, 5, 60 = 3ch, 4 - 1, 4 and 250 = fah.
    (
        "02 00 ffff 00010064 01 03 05 3c 04 04 fa 00",
        "10000010 0000010 0000 1111111111111111 0000000010000000001100100 0000001 0000011 0101 00111100 011 \
         00000100 11111010 0000000",
        "82 04 1f ff e0 10 06 40 20 d4 f1 82 7d 00",
    ),
];

#[test]
fn headers_by_hand() {
    for (first, fields, second) in BY_HAND {
        let (first, second) = (bytes(first), bytes(second));
        assert_eq!((first.len(), second.len()), (16, 14));
        assert_eq!(hex(&bits(fields)), hex(&second));
        let header = Header::accepted(&first).expect("a header");
        assert_eq!(Header::accepted(&second), Some(header));
        assert_eq!(hex(&header.write_as(Edition::First)), hex(&first));
        assert_eq!(hex(&header.write_as(Edition::Second)), hex(&second));
        for (from, to) in [(&first, &second), (&second, &first)] {
            for room in 0..20 {
                let mut out = vec![0xa5; room];
                let mut expected = out.clone();
                let returned = if room < to.len() { 18 } else { 256 * to.len() as u64 };
                if returned != 18 {
                    expected[..to.len()].copy_from_slice(to);
                }
                assert_eq!((other_edition(from, &mut out), out), (returned, expected));
            }
            // bytes behind the header are not looked at
            let mut out = vec![0; to.len()];
            assert_eq!(other_edition(&[from.as_slice(), &[7; 9]].concat(), &mut out), 256 * to.len() as u64);
            assert_eq!(hex(&out), hex(to));
        }
    }
}

/// Example 12's entries: online, and polls at 1000, 7399, 7400, 7532, 7598.
const ENTRIES: &str = "00
    0e 0000000003e8 0000 000000 000000
    0e 000000001ce7 0000 000000 000000
    0e 000000001ce8 0000 000000 000000
    0e 000000001d6c 0000 000000 000000
    0e 000000001dae 0000 000000 000000";

/// tests/traces.rs has the answers.
#[test]
fn example_12_in_both_editions() {
    let left = [BY_HAND[0].0, BY_HAND[0].2].map(|header| {
        let mut answers = vec![0; 6 * ANSWER];
        let returned = replay_trace(&[bytes(header), bytes(ENTRIES)].concat(), &mut answers);
        (returned, hex(&answers))
    });
    assert_eq!(left[0].0, 6 * 256);
    assert_eq!(left[0], left[1]);
}

/// What both calls say of a header that they refuse: the same number, and nothing written.
fn refused(header: &[u8]) -> u64 {
    let (mut answers, mut out) = ([0xa5; 16], [0xa5; 16]);
    let number = replay_trace(header, &mut answers);
    assert_eq!(other_edition(header, &mut out), number);
    assert_eq!(other_edition(header, &mut []), number, "18 comes after the header's number");
    assert_eq!((answers, out), ([0xa5; 16], [0xa5; 16]));
    number
}

/// Each header has the fault of its number and those that are asked for later: "Order of checks as in edition 1".
#[test]
fn refusals_of_edition_2_in_their_order() {
    // address 127, baud 15, slot 199, HSA 5, rotation 255, gap 0, retry 0, min Tsdr 10, one factor zero, last bits 1
    let mut fields = [
        "10000010",
        "1111111",
        "1111",
        "0000000011000111",
        "0000000000000000011111111",
        "0000000",
        "0000101",
        "0000",
        "00001010",
        "111",
        "00000100",
        "00000000",
        "0000001",
    ];
    let steps = [
        (1, 1, "0000101"),
        (10, 2, "0110"),
        (2, 3, "0000000011001000"),
        (3, 6, "1111110"),
        (4, 4, "0000000111111111111111111"),
        (5, 5, "0000001"),
        (6, 7, "0001"),
        (7, 8, "00001011"),
        (8, 11, "00000001"),
        (14, 12, "0000000"),
    ];
    for (number, at, good) in steps {
        let header = bits(&fields.concat());
        assert_eq!(refused(&header), number);
        // before all of them
        assert_eq!(refused(&header[..13]), 17);
        fields[at] = good;
    }
    assert!(Header::accepted(&bits(&fields.concat())).is_some());
    // the edges of rotation and address, and each of the seven last bits
    for (at, bad, number) in [
        (4, "1000000000000001011101001", 4),
        (4, "1111111111111111111111111", 4),
        (1, "1111110", 1),
        (12, "1000000", 14),
        (12, "0100000", 14),
        (12, "0010000", 14),
        (12, "0001000", 14),
        (12, "0000100", 14),
        (12, "0000010", 14),
    ] {
        let mut other = fields;
        other[at] = bad;
        assert_eq!(refused(&bits(&other.concat())), number, "{}", bad);
    }
}

#[test]
fn the_first_byte_decides_the_length() {
    let good = bytes(BY_HAND[0].2);
    for length in 0..14 {
        assert_eq!(refused(&good[..length]), 17, "{} bytes", length);
    }
    assert_eq!(replay_trace(&good, &mut []), 0);
    // the 15th byte is the first entry
    assert_eq!(replay_trace(&[&good[..], &[0]].concat(), &mut [0; 8]), 256);
    assert_eq!(replay_trace(&[&good[..], &[0, 1]].concat(), &mut [0; 16]), 2 * 256);
    assert_eq!(replay_trace(&[&good[..], &[5, 0]].concat(), &mut [0; 8]), 17);
    assert_eq!(replay_trace(&[&good[..], &[0]].concat(), &mut [0; 7]), 18);
    // every other first byte asks for 16
    for first in (0..=255).filter(|first| *first != 0x82) {
        let mut other = [&good[..], &[0, 0]].concat();
        other[0] = first;
        for length in 0..16 {
            assert_eq!(refused(&other[..length]), 17, "{:02x}h, {} bytes", first, length);
        }
        if first > 125 {
            assert_eq!(refused(&other), 1, "{:02x}h", first);
        }
    }
}

/// A trace whose header moved gives the same answers, and its header moves back to the same bytes.
#[test]
fn a_trace_whose_header_moved_is_answered_alike() {
    let mut moved = [0, 0];
    for index in 0..400 {
        let made = trace(1, index);
        let header = match Header::accepted(&made.header) {
            Some(header) => header,
            None => continue,
        };
        let edition = Edition::of(&made.header);
        moved[usize::from(edition == Edition::Second)] += 1;
        let mut other = made.clone();
        other.header = header.write_as(edition.other());
        let mut back = vec![0; edition.length()];
        assert_eq!(other_edition(&other.bytes(), &mut back), 256 * back.len() as u64);
        assert_eq!(back, made.header[..back.len()]);
        // damage can have put entries into what was meant as the header
        other.header.extend(&made.header[back.len()..]);
        let (mut answers, mut others) = (vec![made.fill; made.room], vec![made.fill; made.room]);
        let returned = replay_trace(&made.bytes(), &mut answers);
        assert_eq!(replay_trace(&other.bytes(), &mut others), returned);
        assert_eq!(answers, others);
    }
    assert!(moved.iter().all(|count| *count > 100), "{:?}", moved);
}

#[test]
fn wrong_moves_are_found() {
    // a byte behind the header that is written
    let tail = |header: &[u8], out: &mut [u8]| {
        let returned = other_edition(header, out);
        out.iter_mut().skip((returned / 256) as usize).take(1).for_each(|byte| *byte ^= 1);
        returned
    };
    // a refused header writes
    let writes = |header: &[u8], out: &mut [u8]| {
        let returned = other_edition(header, out);
        if returned < 256 {
            out.iter_mut().take(1).for_each(|byte| *byte = 0x82);
        }
        returned
    };
    // 18 before the header's number
    let early = |header: &[u8], out: &mut [u8]| if out.len() < 14 { 18 } else { other_edition(header, out) };
    // edition 2 is not known
    let first = |header: &[u8], out: &mut [u8]| match header.first() {
        Some(0x82) if header.len() >= 16 => 1,
        Some(0x82) => 17,
        _ => other_edition(header, out),
    };
    let refuses = |_: &[u8], _: &mut [u8]| 17;
    let panics = |_: &[u8], _: &mut [u8]| -> u64 { panic!("planted") };
    let wrong: [Call; 6] = [&tail, &writes, &early, &first, &refuses, &panics];
    for (i, call) in wrong.iter().enumerate() {
        let (said, held) = compare_traces(Calls { other_edition: *call, ..ORACLE }, 5, 300);
        assert!(!held, "{}: {}", i, said);
        for part in ["seed 5, trace ", "the header moves otherwise", "the oracle:  ", "the other:   "] {
            assert!(said.contains(part), "{}: {}", i, said);
        }
    }
}
