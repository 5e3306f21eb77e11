//! Document 02, P9: headers of edition 2. Their bits are stated by hand, field by field, from document 02's widths.

use crate::ring::station_5;
use crate::story::*;
use crate::{applications, bus, night};
use amsulfezd::refusal::Refusal;
use amsulfezd::trace::Header;

/// Example 12's header: address 5, baud code 6, slot 200 = 128 + 64 + 8, rotation 32,436 = 7eb4h, gap wait 10, HSA 126, retry 1,
/// min Tsdr 11, 1 application, no watchdog.
const STATION_5: [&str; 13] = [
    "10000010",
    "0000101",
    "0110",
    "0000000011001000",
    "0000000000111111010110100",
    "0001010",
    "1111110",
    "0001",
    "00001011",
    "000",
    "00000000",
    "00000000",
    "0000000",
];

/// The place of the applications among the fields.
const APPLICATIONS: usize = 9;

pub fn stories() -> Vec<Story> {
    let mut all = retold();
    all.extend(refused());
    all.extend(lengths());
    all.push(accepted_limits());
    all
}

/// Stories of edition 1 told again: the same entries, the same answers, two bytes fewer.
fn retold() -> Vec<Story> {
    let mut three = STATION_5;
    three[APPLICATIONS] = "010";
    vec![
        bus::example_12()
            .retold(
                "edition-2/example12",
                "Document 01, example 12, with its header in edition 2",
                "The entries of `example12`, behind the same settings in 14 bytes. The answers are the same.",
            )
            .edition_2(STATION_5),
        night::story()
            .retold(
                "edition-2/night",
                "The letter's night, with its header in edition 2",
                "The entries of `night`, behind the same settings in 14 bytes. The answers are the same.",
            )
            .edition_2(STATION_5),
        applications::several_applications()
            .retold(
                "edition-2/applications",
                "Three applications, with the header in edition 2",
                "The entries of `applications`, behind the same settings in 14 bytes: three applications are packed as 2. The answers are\n\
                 the same.",
            )
            .edition_2(three),
    ]
}

/// A header for each refusal, each with the faults that are checked later.
fn refused() -> Vec<Story> {
    let tale = "The header has this fault and those that are checked after it, in the order of edition 1: 17, 1, 10, 2, 3, 4, 25, 5, 6, 7, 8, 14;\n\
                11 cannot occur, since every number of 3 bits is 1 to 8 applications less one. The first decides. The entry that follows,\n\
                online, is not looked at, and nothing is written.";
    let mut header = Header {
        address: 126,
        baud: 11,
        slot_bits: 199,
        rotation_bits: 255,
        gap_wait: 0,
        hsa: 5,
        retry: 0,
        min_tsdr: 10,
        applications: 8,
        watchdog_factors: (4, 0),
        zero: 1,
    };
    let mut bits = [
        "10000010",
        "1111110",
        "1011",
        "0000000011000111",
        "0000000000000000011111111",
        "0000000",
        "0000101",
        "0000",
        "00001010",
        "111",
        "00000100",
        "00000000",
        "0000001",
    ];
    let mut all = Vec::new();
    let mut refuse = |name, title, header, bits, refusal| {
        let mut story = Story::new(name, header, title, tale).edition_2(bits);
        story.header_refused(refusal);
        all.push(story);
    };
    let title = "Refused header of edition 2: address 126";
    refuse(
        "edition-2/01-address",
        title,
        header,
        bits,
        Refusal::Address,
    );
    header.address = 127;
    bits[1] = "1111111";
    let title = "Refused header of edition 2: address 127";
    refuse(
        "edition-2/01-address-127",
        title,
        header,
        bits,
        Refusal::Address,
    );
    header.address = 5;
    bits[1] = "0000101";
    let title = "Refused header of edition 2: baud code 11";
    refuse("edition-2/10-baud", title, header, bits, Refusal::Baud);
    header.baud = 6;
    bits[2] = "0110";
    let title = "Refused header of edition 2: slot 199 bits where 200 are the least";
    refuse("edition-2/02-slot", title, header, bits, Refusal::Slot);
    header.slot_bits = 200;
    bits[3] = "0000000011001000";
    let title = "Refused header of edition 2: HSA 5 is not above the address 5";
    refuse("edition-2/03-hsa", title, header, bits, Refusal::Hsa);
    header.hsa = 126;
    bits[6] = "1111110";
    let title = "Refused header of edition 2: rotation 255 bits";
    refuse(
        "edition-2/04-rotation",
        title,
        header,
        bits,
        Refusal::Rotation,
    );
    header.rotation_bits = 16_777_961;
    bits[4] = "1000000000000001011101001";
    let title = "Refused header of edition 2: rotation 16,777,961 bits, one above the largest";
    refuse(
        "edition-2/04-rotation-above",
        title,
        header,
        bits,
        Refusal::Rotation,
    );
    header.rotation_bits = 299;
    bits[4] = "0000000000000000100101011";
    let title =
        "Refused header of edition 2: rotation 299 bits has no room for a gap poll with slot 200";
    refuse(
        "edition-2/25-gap-room",
        title,
        header,
        bits,
        Refusal::GapRoom,
    );
    header.rotation_bits = 300;
    bits[4] = "0000000000000000100101100";
    let title = "Refused header of edition 2: gap wait 0";
    refuse(
        "edition-2/05-gap-wait",
        title,
        header,
        bits,
        Refusal::GapWait,
    );
    header.gap_wait = 1;
    bits[5] = "0000001";
    let title = "Refused header of edition 2: retry 0; 16 has no bits";
    refuse("edition-2/06-retry", title, header, bits, Refusal::Retry);
    header.retry = 15;
    bits[7] = "1111";
    let title = "Refused header of edition 2: min Tsdr 10";
    refuse(
        "edition-2/07-min-tsdr",
        title,
        header,
        bits,
        Refusal::MinTsdr,
    );
    header.min_tsdr = 11;
    bits[8] = "00001011";
    let title = "Refused header of edition 2: one watchdog factor is zero";
    refuse(
        "edition-2/08-watchdog",
        title,
        header,
        bits,
        Refusal::Watchdog,
    );
    header.watchdog_factors = (4, 250);
    bits[11] = "11111010";
    let title = "Refused header of edition 2: the last bit is not zero";
    refuse("edition-2/14-zero", title, header, bits, Refusal::ZeroBit);
    header.zero = 64;
    bits[12] = "1000000";
    let title = "Refused header of edition 2: the first of the last seven bits is not zero";
    refuse(
        "edition-2/14-zero-first",
        title,
        header,
        bits,
        Refusal::ZeroBit,
    );
    all
}

/// The first byte says how long the header is: 82h 14 bytes, anything else 16.
fn lengths() -> Vec<Story> {
    let cut = |name, header, title, tale, missing| {
        let mut story = Story::new(name, header, title, tale);
        story.cut_bytes(missing);
        story
    };
    let mut online = Story::new(
        "edition-2/15-bytes",
        station_5(),
        "82h and 15 bytes: the last is an entry",
        "A header of edition 2 has 14 bytes, so the 15th is the first entry: online.",
    )
    .edition_2(STATION_5);
    online.online("put online");
    let mut above = Story::new(
        "edition-2/83h-16-bytes",
        with_83h(),
        "83h and 16 bytes: 1",
        "The header of edition 1 below is whole, and its address is above 125. The entry that follows, online, is not looked at.",
    );
    above.header_refused(Refusal::Address);
    vec![
        cut(
            "edition-2/13-bytes",
            station_5(),
            "82h and 13 bytes: 17",
            "The header below without its last byte.",
            1,
        )
        .edition_2(STATION_5),
        Story::new(
            "edition-2/14-bytes",
            station_5(),
            "82h and 14 bytes: a header, and no entry",
            "A trace of 14 good bytes has no entry to answer and ends with 0.",
        )
        .edition_2(STATION_5),
        online,
        cut(
            "edition-2/83h-14-bytes",
            with_83h(),
            "83h and 14 bytes: 17",
            "Only 82h begins a header of 14 bytes. 83h is an address above 125 in edition 1, but the end of the trace is found first.",
            2,
        ),
        cut(
            "edition-2/83h-15-bytes",
            with_83h(),
            "83h and 15 bytes: 17",
            "The header of edition 1 below without its last byte. Its address is above 125, but the end of the trace is found first.",
            1,
        ),
        above,
    ]
}

/// The settings of station 5 in edition 1, with 83h = 131 as address.
fn with_83h() -> Header {
    Header {
        address: 0x83,
        ..station_5()
    }
}

/// A header with each setting at a limit, and no entry. 16,777,960 = 2^24 + 512 + 128 + 64 + 32 + 8.
fn accepted_limits() -> Story {
    let header = Header {
        address: 125,
        baud: 10,
        slot_bits: 1000,
        rotation_bits: 16_777_960,
        gap_wait: 100,
        hsa: 126,
        retry: 15,
        min_tsdr: 255,
        applications: 8,
        watchdog_factors: (255, 255),
        zero: 0,
    };
    Story::new(
        "edition-2/accepted-limits",
        header,
        "An accepted header of edition 2 at the limits",
        "Each setting is at a limit of its range, and fits its field. A trace of 14 good bytes has no entry to answer and ends with 0.",
    )
    .edition_2([
        "10000010",
        "1111101",
        "1010",
        "0000001111101000",
        "1000000000000001011101000",
        "1100100",
        "1111110",
        "1111",
        "11111111",
        "111",
        "11111111",
        "11111111",
        "0000000",
    ])
}
