//! Every refusal that a trace can meet. Refusal 9 belongs to a settings call and 18 to the caller's buffer: the hosts'
//! tests show 18.

use crate::bus::claims_as_example_12;
use crate::ring::station_5;
use crate::story::*;
use amsulfezd::answer::State::*;
use amsulfezd::record::Poll;
use amsulfezd::refusal::Refusal;
use amsulfezd::trace::Header;

pub fn stories() -> Vec<Story> {
    let mut all = vec![entries(), cut_entry(), cut_short_entry()];
    all.extend(headers());
    all
}

/// A record of zeros, of this length, at clock 50,000, with these bytes put in.
fn record(length: usize, puts: &[(usize, &[u8])]) -> Vec<u8> {
    let mut bytes = vec![0; length];
    bytes[4..6].copy_from_slice(&[0xc3, 0x50]);
    for &(at, put) in puts {
        bytes[at..at + put.len()].copy_from_slice(put);
    }
    bytes
}

/// A record with one application and one telegram of these bytes.
fn with_telegram(telegram: u32) -> Vec<u8> {
    record(18, &[(6, &[0x08, 0]), (14, &telegram.to_be_bytes())])
}

/// Places in a telegram's 32 bits.
const DESTINATION: u32 = 23;
const SOURCE: u32 = 16;
const STATUS_REQUEST: u32 = 15;
const STATION_TYPE: u32 = 13;

/// A telegram word of this kind from 9 to 5.
fn from_9_to_5(kind: u32) -> u32 {
    kind << 30 | 5 << DESTINATION | 9 << SOURCE
}

/// Refused entries, which change nothing.
fn entries() -> Story {
    let mut story = Story::new(
        "refused-entries",
        station_5(),
        "Every refusal of an entry: 12 to 15",
        "Bad records, in several states. Each gets an answer with its number, the state, the next application and the next\n\
         station, and changes nothing: the bad records' clock, where they have one, is 50,000, at which a listening station\n\
         would have claimed the token; it does so at 7,400, as if they had not been there. Nor does a bad record move a\n\
         station that is told to be passive. Passive itself was refused with 16 in earlier versions.",
    );
    story.online("put online");
    story.bad_record(
        &[0, 0, 0],
        Refusal::RecordLength,
        "3 bytes, fewer than 8; the station does not even start listening",
    );
    story.poll(Poll::at(1000), bus(ListenToken), "it listens");
    story.bad_record(
        &record(7, &[]),
        Refusal::RecordLength,
        "7 bytes, fewer than 8",
    );
    story.bad_record(
        &record(8, &[(6, &[0x48, 0])]),
        Refusal::TelegramCount,
        "9 telegrams are announced: refused whatever the length",
    );
    story.bad_record(
        &record(50, &[(6, &[0x48, 0])]),
        Refusal::TelegramCount,
        "9 telegrams, with the length that they would have",
    );
    story.bad_record(
        &record(15, &[]),
        Refusal::RecordLength,
        "one byte more than 8 + 6 x 1 + 4 x 0",
    );
    story.bad_record(
        &record(14, &[(6, &[0x08, 0])]),
        Refusal::RecordLength,
        "one telegram is announced and missing",
    );
    story.bad_record(
        &record(20, &[]),
        Refusal::RecordLength,
        "the decisions of two applications: the station has one",
    );
    story.bad_record(
        &record(14, &[(8, &[0x00, 0x00, 0x80])]),
        Refusal::ZeroBit,
        "a decision without a send, but with a length",
    );
    story.bad_record(
        &record(14, &[(8, &[0x8a, 0x00, 0x00])]),
        Refusal::ZeroBit,
        "a send of 0 bytes without reply, but with a reply address: 14 comes before 15",
    );
    story.bad_record(
        &record(14, &[(8, &[0x80, 0x00, 0x00])]),
        Refusal::NoBytes,
        "a send of 0 bytes",
    );
    story.bad_record(
        &record(14, &[(8, &[0x80, 0x05, 0x01])]),
        Refusal::ZeroBit,
        "a send of 10 bytes with one of the 7 bits after the length set",
    );
    story.bad_record(
        &record(14, &[(11, &[0xc5, 0x00, 0x00])]),
        Refusal::NoBytes,
        "a high priority send of 0 bytes, with reply",
    );
    story.bad_record(
        &record(
            18,
            &[
                (6, &[0x08, 0]),
                (8, &[0x80, 0x00, 0x00]),
                (14, &[0x00, 0x00, 0x00, 0x01]),
            ],
        ),
        Refusal::NoBytes,
        "a send of 0 bytes and a bad telegram: the decision stands to the left",
    );
    story.bad_record(
        &with_telegram(from_9_to_5(0) | 1 << STATUS_REQUEST),
        Refusal::ZeroBit,
        "a token with the status-request bit",
    );
    story.bad_record(
        &with_telegram(1 << 30 | 9 << SOURCE),
        Refusal::ZeroBit,
        "a short confirmation with a source",
    );
    story.bad_record(
        &with_telegram(from_9_to_5(2) | 1 << STATION_TYPE),
        Refusal::ZeroBit,
        "a request with a station type",
    );
    story.bad_record(
        &with_telegram(from_9_to_5(3) | 1 << STATUS_REQUEST),
        Refusal::ZeroBit,
        "a response with the status-request bit",
    );
    story.bad_record(
        &with_telegram(from_9_to_5(3) | 1),
        Refusal::ZeroBit,
        "a response with the last of the 9 zero bits set",
    );
    story.poll(
        Poll::at(7399),
        bus(ListenToken),
        "6,399 us of silence: nothing that was refused has moved the station",
    );
    story.poll(
        Poll::at(7400),
        sends_token(ClaimToken, 5),
        "6,400 us of silence: it claims the token",
    );
    story.poll(
        Poll::at(7532),
        sends_token(UseToken, 5),
        "the claim is sent a second time",
    );
    story.bad_record(
        &record(13, &[]),
        Refusal::RecordLength,
        "one byte fewer than 14",
    );
    story.offline("taken offline");
    story.bad_record(
        &record(13, &[]),
        Refusal::RecordLength,
        "a bad record is refused offline too",
    );
    story.passive("told to be passive: accepted; the state is Offline until the next poll");
    story.bad_record(
        &record(13, &[]),
        Refusal::RecordLength,
        "a record that is refused is no poll: the state is Offline still",
    );
    story.poll(Poll::at(9000), bus(PassiveIdle), "it is passive");
    story.bad_record(
        &with_telegram(from_9_to_5(0) | 1 << STATUS_REQUEST),
        Refusal::ZeroBit,
        "a token with the status-request bit is refused in PassiveIdle too",
    );
    story
}

/// Example 12 without its last byte.
fn cut_entry() -> Story {
    let mut story = Story::new(
        "cut-entry",
        station_5(),
        "A trace that ends inside an entry: 17",
        "Example 12 without its last byte. The five answers before stand.",
    );
    claims_as_example_12(&mut story);
    let record = Poll::at(7598).to_bytes(1).expect("a record that fits");
    story.cut(
        &record,
        1,
        "a poll record of 14 bytes of which 13 are there",
    );
    story
}

/// A record that is cut short and would be too short as well.
fn cut_short_entry() -> Story {
    let mut story = Story::new(
        "cut-short-entry",
        station_5(),
        "A trace that ends inside a record that would be too short: 17, not 12",
        "The entry's length byte says 5, which would be refused with 12, but only 2 bytes follow: the end of the trace is found first.",
    );
    story.online("put online");
    story.cut(&[0; 5], 3, "a poll record of 5 bytes of which 2 are there");
    story
}

/// A header for each refusal, each with the faults that are checked later; then one at the limits that is accepted.
fn headers() -> Vec<Story> {
    let mut faulty = Header {
        address: 126,
        baud: 11,
        slot_bits: 199,
        rotation_bits: 255,
        gap_wait: 0,
        hsa: 5,
        retry: 16,
        min_tsdr: 10,
        applications: 9,
        watchdog_factors: (4, 0),
        zero: 1,
    };
    let tale = "The header has this fault and those that are checked after it, in the documents' order: 17, 1, 10, 2, 3, 4, 25, 5, 6, 7, 11, 8,\n\
                14. The first decides. The entry that follows, online, is not looked at, and nothing is written.";
    let mut all = Vec::new();
    let mut refused = |name, header, title, refusal| {
        let mut story = Story::new(name, header, title, tale);
        story.header_refused(refusal);
        all.push(story);
    };
    refused(
        "headers/01-address",
        faulty,
        "Refused header: address 126",
        Refusal::Address,
    );
    faulty.address = 5;
    refused(
        "headers/10-baud",
        faulty,
        "Refused header: baud code 11",
        Refusal::Baud,
    );
    faulty.baud = 6;
    refused(
        "headers/02-slot",
        faulty,
        "Refused header: slot 199 bits where 200 are the least",
        Refusal::Slot,
    );
    faulty.slot_bits = 200;
    refused(
        "headers/03-hsa",
        faulty,
        "Refused header: HSA 5 is not above the address 5",
        Refusal::Hsa,
    );
    faulty.hsa = 126;
    refused(
        "headers/04-rotation",
        faulty,
        "Refused header: rotation 255 bits",
        Refusal::Rotation,
    );
    faulty.rotation_bits = 299;
    refused(
        "headers/25-gap-room",
        faulty,
        "Refused header: rotation 299 bits has no room for a gap poll with slot 200",
        Refusal::GapRoom,
    );
    faulty.rotation_bits = 300;
    refused(
        "headers/05-gap-wait",
        faulty,
        "Refused header: gap wait 0",
        Refusal::GapWait,
    );
    faulty.gap_wait = 1;
    refused(
        "headers/06-retry",
        faulty,
        "Refused header: retry 16",
        Refusal::Retry,
    );
    faulty.retry = 15;
    refused(
        "headers/07-min-tsdr",
        faulty,
        "Refused header: min Tsdr 10",
        Refusal::MinTsdr,
    );
    faulty.min_tsdr = 11;
    refused(
        "headers/11-applications",
        faulty,
        "Refused header: 9 applications",
        Refusal::Applications,
    );
    faulty.applications = 8;
    refused(
        "headers/08-watchdog",
        faulty,
        "Refused header: one watchdog factor is zero",
        Refusal::Watchdog,
    );
    faulty.watchdog_factors = (4, 250);
    refused(
        "headers/14-zero",
        faulty,
        "Refused header: the last byte is not zero",
        Refusal::ZeroBit,
    );
    all.push(cut_header());
    all.push(accepted_limits());
    all
}

/// A header of 15 bytes with every fault.
fn cut_header() -> Story {
    let header = Header {
        address: 126,
        baud: 11,
        rotation_bits: 299,
        ..station_5()
    };
    let mut story = Story::new(
        "headers/17-cut",
        header,
        "A trace that ends inside its header: 17",
        "The header below without its last byte. Its address, baud code and rotation are bad too, but the end of the trace is found first.",
    );
    story.cut_bytes(1);
    story
}

/// A header with each setting at a limit, and no entry.
fn accepted_limits() -> Story {
    let header = Header {
        address: 125,
        baud: 10,
        slot_bits: 1000,
        rotation_bits: 16_777_960,
        gap_wait: 100,
        hsa: 126,
        retry: 15,
        min_tsdr: 255,
        applications: 8,
        watchdog_factors: (255, 255),
        zero: 0,
    };
    Story::new(
        "headers/accepted-limits",
        header,
        "An accepted header at the limits",
        "Each setting is at a limit of its range. A trace of 16 good bytes has no entry to answer and ends with 0.",
    )
}
