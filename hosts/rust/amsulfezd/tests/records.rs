//! Records and traces: what is written reads back, and the bytes are document 01's.

use amsulfezd::record::{Decision, Poll, StationType, Telegram};
use amsulfezd::trace::{entries, in_other_edition, Edition, Entry, Header, TraceBuilder};

/// Bytes from hexadecimal digits; blanks are left out.
fn bytes(digits: &str) -> Vec<u8> {
    let digits: Vec<u8> = digits
        .chars()
        .filter(|c| !c.is_whitespace())
        .map(|c| c.to_digit(16).expect("a hexadecimal digit") as u8)
        .collect();
    digits.chunks(2).map(|two| two[0] * 16 + two[1]).collect()
}

#[test]
fn the_header_of_example_12() {
    let header = Header::new(5, 6, 1);
    assert_eq!(
        header.to_bytes()[..],
        bytes("050600c800007eb40a7e010b01000000")
    );
    assert_eq!(Header::from_bytes(&header.to_bytes()), Some(header));
}

#[test]
fn each_field_of_a_header_has_its_place() {
    let digits = "7d0a 1234 56789abc 64 7e 0f 0b 08 f1 f2 01";
    let header = Header {
        address: 125,
        baud: 10,
        slot_bits: 0x1234,
        rotation_bits: 0x5678_9abc,
        gap_wait: 100,
        hsa: 126,
        retry: 15,
        min_tsdr: 11,
        applications: 8,
        watchdog_factors: (0xf1, 0xf2),
        zero: 1,
    };
    assert_eq!(header.to_bytes()[..], bytes(digits));
    assert_eq!(Header::from_bytes(&bytes(digits)), Some(header));
    assert_eq!(Header::from_bytes(&bytes(digits)[..15]), None);
}

/// Headers in both editions. The bits of edition 2 are document 02's fields, each number in binary, one after the other.
#[test]
fn headers_in_both_editions() {
    for (first, bits, second) in [
        // Example 12: 82h, 5, 6, 200, 32,436, 10, 126, 1, 11, 1 - 1, no factors.
        (
            "05 06 00c8 00007eb4 0a 7e 01 0b 01 00 00 00",
            "10000010 0000101 0110 0000000011001000 0000000000111111010110100 0001010 1111110 0001 00001011 000 \
             00000000 00000000 0000000",
            "82 0a c0 19 00 07 eb 41 5f 84 2c 00 00 00",
        ),
        // The limits: 125, 10, 1,000, 16,777,960, 100, 126, 15, 255, 8 - 1, 255 and 255.
        (
            "7d 0a 03e8 010002e8 64 7e 0f ff 08 ff ff 00",
            "10000010 1111101 1010 0000001111101000 1000000000000001011101000 1100100 1111110 1111 11111111 111 \
             11111111 11111111 0000000",
            "82 fb 40 7d 10 00 2e 8c 9f bf ff ff ff 80",
        ),
        // 2, 0, 65,535, 65,636, 1, 3, 5, 60, 4 - 1, 4 and 250; the last bits are 1.
        (
            "02 00 ffff 00010064 01 03 05 3c 04 04 fa 01",
            "10000010 0000010 0000 1111111111111111 0000000010000000001100100 0000001 0000011 0101 00111100 011 \
             00000100 11111010 0000001",
            "82 04 1f ff e0 10 06 40 20 d4 f1 82 7d 01",
        ),
    ] {
        let digits: String = bits.split_whitespace().collect();
        let packed: Vec<u8> = (0..14)
            .map(|i| u8::from_str_radix(&digits[8 * i..8 * i + 8], 2).expect("eight bits"))
            .collect();
        let (first, second) = (bytes(first), bytes(second));
        assert_eq!(packed, second);
        assert_eq!((first.len(), second.len()), (16, 14));
        let header = Header::from_bytes(&first).expect("a header");
        assert_eq!(Header::from_bytes(&second), Some(header));
        assert_eq!(header.to_edition(Edition::First), Ok(first.clone()));
        assert_eq!(header.to_edition(Edition::Second), Ok(second.clone()));
        assert_eq!(in_other_edition(&first), Some(second.clone()));
        assert_eq!(in_other_edition(&second), Some(first.clone()));
        assert_eq!(Header::from_bytes(&second[..13]), None);
        assert_eq!(in_other_edition(&second[..13]), None);
        assert_eq!(in_other_edition(&first[..15]), None);
    }
}

/// The first byte decides how long the header is, and where the entries begin.
#[test]
fn the_edition_of_a_trace() {
    assert_eq!(Edition::of(&[]), Edition::First);
    for first in 0..=255 {
        let second = first == 0x82;
        let trace = [&[first][..], &[0; 14]].concat();
        assert_eq!(Edition::of(&trace) == Edition::Second, second);
        assert_eq!(Header::from_bytes(&trace).is_some(), second);
        assert_eq!(entries(&trace).count(), usize::from(second));
    }
    let mut trace =
        TraceBuilder::in_edition(Edition::Second, Header::new(5, 6, 2)).expect("it fits");
    trace.online();
    trace.poll(&Poll::at(1000)).expect("it fits");
    let bytes = trace.into_bytes();
    assert_eq!(bytes.len(), 14 + 1 + 1 + 8 + 6 * 2);
    let read: Vec<Entry> = entries(&bytes).collect();
    assert_eq!(read.len(), 2);
    assert_eq!(read[0], Entry::Online);
    assert!(matches!(read[1], Entry::Poll(record) if record.len() == 20));
}

/// What edition 2 has no bits for is not written.
#[test]
fn what_does_not_fit_into_edition_2() {
    let good = Header::new(5, 6, 1);
    for (header, words) in [
        (
            Header {
                address: 128,
                ..good
            },
            "address",
        ),
        (Header { baud: 16, ..good }, "baud code"),
        (
            Header {
                rotation_bits: 1 << 25,
                ..good
            },
            "rotation bits",
        ),
        (
            Header {
                gap_wait: 128,
                ..good
            },
            "gap wait",
        ),
        (Header { hsa: 128, ..good }, "HSA"),
        (Header { retry: 16, ..good }, "retry"),
        (
            Header {
                applications: 0,
                ..good
            },
            "applications",
        ),
        (
            Header {
                applications: 9,
                ..good
            },
            "applications",
        ),
        (Header { zero: 128, ..good }, "zero"),
    ] {
        let unfit = header.to_edition(Edition::Second).expect_err(words);
        assert!(unfit.to_string().ends_with(words), "{}", unfit);
        assert!(TraceBuilder::in_edition(Edition::Second, header).is_err());
        assert_eq!(in_other_edition(&header.to_bytes()), None);
    }
}

#[test]
fn a_poll_record_bit_by_bit() {
    // Clock 0x123456789abc; transmitting, 4 telegrams, 0x155 pending: 1 0100 00101010101.
    // Application 0 asks 85 with 10 bytes: 1 1 1010101 00001010 0000000; its high decision is none.
    // Application 1 sends 255 bytes at high priority without reply: 1 0 0000000 11111111 0000000.
    let poll = Poll::at(0x1234_5678_9abc)
        .transmitting()
        .pending(0x155)
        .normal(0, Decision::asks(85, 10))
        .high(1, Decision::tells(255))
        .telegram(Telegram::token(9, 5))
        .telegram(Telegram::ShortConfirmation)
        .telegram(Telegram::status_request(127, 5))
        .telegram(Telegram::response_with_status(
            9,
            5,
            StationType::WithoutToken,
            15,
        ));
    let expected = bytes(
        "123456789abc a155
         ea8500 000000 000000 807f80
         02890000 40000000 82ff8000 c2895e00",
    );
    assert_eq!(poll.to_bytes(2).unwrap(), expected);
    assert_eq!(
        Poll::from_bytes(&expected, 2),
        Some(
            poll.high(0, Decision::Declines)
                .normal(1, Decision::Declines)
        )
    );
    assert_eq!(
        Poll::from_bytes(&expected, 1),
        None,
        "two applications' length"
    );
    assert_eq!(Poll::clock_of(&expected[..6]), Some(0x1234_5678_9abc));
    assert_eq!(Poll::clock_of(&expected[..5]), None);
}

#[test]
fn every_telegram_and_decision_reads_back() {
    let mut telegrams = vec![Telegram::ShortConfirmation];
    for address in 0..128 {
        let other = 127 - address;
        telegrams.push(Telegram::token(address, other));
        telegrams.push(Telegram::status_request(address, other));
        telegrams.push(Telegram::request(address, other));
        for number in 0..4 {
            let station_type = StationType::try_from(number).expect("a type");
            let status = address % 16;
            telegrams.push(Telegram::response_with_status(
                address,
                other,
                station_type,
                status,
            ));
        }
    }
    for telegram in telegrams {
        let poll = Poll::at(1).telegram(telegram);
        let read = Poll::from_bytes(&poll.to_bytes(1).unwrap(), 1).unwrap();
        assert_eq!(read.telegrams, vec![telegram]);
    }
    for address in 0..128 {
        for decision in [Decision::asks(address, 255), Decision::tells(address + 1)] {
            let poll = Poll::at(1).normal(0, decision).high(0, decision);
            assert_eq!(Poll::from_bytes(&poll.to_bytes(1).unwrap(), 1), Some(poll));
        }
    }
}

#[test]
fn what_does_not_fit_is_refused_by_the_writer() {
    let mut trace = TraceBuilder::new(Header::new(5, 6, 1));
    let empty = trace.clone().into_bytes();
    let crowd = (0..16).fold(Poll::at(0), |poll, _| {
        poll.telegram(Telegram::ShortConfirmation)
    });
    for (poll, word) in [
        (Poll::at(1 << 48), "clock"),
        (Poll::at(0).pending(1 << 11), "pending bytes"),
        (crowd, "telegram count"),
        (Poll::at(0).telegram(Telegram::token(128, 5)), "address"),
        (Poll::at(0).telegram(Telegram::token(5, 128)), "address"),
        (
            Poll::at(0).telegram(Telegram::response_with_status(9, 5, StationType::Slave, 16)),
            "status",
        ),
        (
            Poll::at(0).normal(0, Decision::asks(128, 10)),
            "reply address",
        ),
        (Poll::at(0).normal(1, Decision::tells(1)), "application"),
    ] {
        let unfit = trace.poll(&poll).expect_err(word);
        assert!(unfit.to_string().contains(word), "{}", unfit);
    }
    for length in [0, 1, 2, 256] {
        trace
            .record(&vec![0; length])
            .expect_err("a length that no entry has");
    }
    assert_eq!(trace.into_bytes(), empty, "nothing was written");
}

#[test]
fn entries_come_in_order_and_the_last_may_be_cut() {
    let mut trace = TraceBuilder::new(Header::new(5, 6, 1));
    trace.online();
    trace.record(&[7, 8, 9]).unwrap();
    trace.passive();
    trace.offline();
    trace.record(&[1; 255]).unwrap();
    let bytes = trace.into_bytes();
    let whole = vec![
        Entry::Online,
        Entry::Poll(&[7, 8, 9]),
        Entry::Passive,
        Entry::Offline,
        Entry::Poll(&[1; 255]),
    ];
    assert_eq!(entries(&bytes).collect::<Vec<_>>(), whole);
    let cut: Vec<_> = entries(&bytes[..bytes.len() - 1]).collect();
    assert_eq!(cut[..4], whole[..4]);
    assert_eq!(cut[4..], [Entry::Cut(&[1; 254])]);
    assert_eq!(entries(&bytes[..16]).count(), 0);
    assert_eq!(entries(&bytes[..15]).count(), 0);
}
