//! Answers, refusals and runs.

use amsulfezd::answer::{
    answers, Answer, NextStation, Notice, Outcome, Sent, State, NOBODY, STATES,
};
use amsulfezd::record::StationType;
use amsulfezd::refusal::{Refusal, ALL};
use amsulfezd::run::{from_buffer, from_text, to_text, Run};

/// A listening station's answer with nothing in it; it is alone.
const LISTENS: Answer = Answer {
    refusal: None,
    outcome: Outcome::Bus,
    state: State::ListenToken,
    sent: Sent::Nothing,
    consumed: 0,
    notice: Notice::Nothing,
    next_application: 0,
    next_station: NextStation::Nobody,
};

#[test]
fn the_answers_of_example_12() {
    let claims = Answer {
        outcome: Outcome::Transmission,
        state: State::ClaimToken,
        sent: Sent::Token { to: 5 },
        ..LISTENS
    };
    assert_eq!(u64::from(LISTENS), 0x0310_0000_0000_01fc);
    assert_eq!(u64::from(claims), 0x0242_1400_3000_01fc);
    assert_eq!(Answer::try_from(0x0310_0000_0000_01fc), Ok(LISTENS));
    assert_eq!(Answer::try_from(0x0242_1400_3000_01fc), Ok(claims));
    let bytes = [0x02, 0x42, 0x14, 0x00, 0x30, 0x00, 0x01, 0xfc];
    assert_eq!(Answer::try_from(bytes), Ok(claims));
    assert_eq!(<[u8; 8]>::from(claims), bytes);
}

#[test]
fn an_answer_bit_by_bit() {
    // 00000 010 0011 100 1111111 00 101 1 11111111 1000 10 011 1010101 110 1111101 00
    let answer = Answer {
        refusal: None,
        outcome: Outcome::Transmission,
        state: State::UseToken,
        sent: Sent::Application {
            application: 5,
            high: true,
            reply_from: 127,
            length: 255,
        },
        consumed: 8,
        notice: Notice::Timeout {
            application: 3,
            address: 85,
        },
        next_application: 6,
        next_station: NextStation::Station(125),
    };
    let bits = "00000 010 0011 100 1111111 00 101 1 11111111 1000 10 011 1010101 110 1111101 00";
    let word = u64::from_str_radix(&bits.replace(' ', ""), 2).unwrap();
    assert_eq!(u64::from(answer), word);
    assert_eq!(Answer::try_from(word), Ok(answer));
}

#[test]
fn a_status_response_carries_its_type_and_a_refusal_its_number() {
    let bits = "00000 010 0010 011 0011110 10 000 0 00000110 0000 00 000 0000000 000 0001001 00";
    let word = u64::from_str_radix(&bits.replace(' ', ""), 2).unwrap();
    let answer = Answer {
        outcome: Outcome::Transmission,
        state: State::ActiveIdle,
        sent: Sent::StatusResponse {
            to: 30,
            station_type: StationType::WithoutToken,
        },
        next_station: NextStation::Station(9),
        ..LISTENS
    };
    assert_eq!(Answer::try_from(word), Ok(answer));
    let refused = Answer {
        refusal: Some(Refusal::RecordLength),
        outcome: Outcome::None,
        ..LISTENS
    };
    assert_eq!(u64::from(refused), 0x6010_0000_0000_01fc);
    assert_eq!(Answer::try_from(0x6010_0000_0000_01fc), Ok(refused));
}

/// Document 02, P10: PassiveIdle is 9, and its answer to a request says "slave". 16 is no longer answered; a stored answer of an
/// earlier version is read all the same.
#[test]
fn a_passive_station_and_the_refusal_of_earlier_versions() {
    let bits = "00000 010 1001 011 0001001 00 000 0 00000110 0000 00 000 0000000 000 0000111 00";
    let word = u64::from_str_radix(&bits.replace(' ', ""), 2).unwrap();
    let answer = Answer {
        outcome: Outcome::Transmission,
        state: State::PassiveIdle,
        sent: Sent::StatusResponse {
            to: 9,
            station_type: StationType::Slave,
        },
        next_station: NextStation::Station(7),
        ..LISTENS
    };
    assert_eq!(u64::from(answer), word);
    assert_eq!(Answer::try_from(word), Ok(answer));
    let earlier = Answer {
        refusal: Some(Refusal::Passive),
        outcome: Outcome::None,
        ..LISTENS
    };
    assert_eq!(Answer::try_from(0x8010_0000_0000_01fc), Ok(earlier));
}

/// Document 02, P5: 127 is nobody, in the answers of polls, commands and refused entries alike; 126 is no next station.
#[test]
fn the_next_station_is_an_address_or_nobody() {
    for number in 0..=125 {
        let next = NextStation::Station(number);
        assert_eq!(
            (u8::from(next), NextStation::try_from(number)),
            (number, Ok(next))
        );
    }
    let next = |word| Answer::try_from(word).expect("an answer").next_station;
    for word in [
        0x0000_0000_0000_01fc, // a command
        0x0310_0000_0000_01fc, // a poll
        0x6010_0000_0000_01fc, // a refused entry
    ] {
        assert_eq!(next(word), NextStation::Nobody);
        assert_eq!(next(word - (127 << 2)), NextStation::Station(0));
    }
    assert_eq!(
        (u8::from(NextStation::Nobody), NextStation::try_from(NOBODY)),
        (127, Ok(NextStation::Nobody))
    );
    for number in [126, 128, 255] {
        let unknown = NextStation::try_from(number).expect_err("no next station");
        assert_eq!(unknown.number(), number);
    }
    assert_eq!(NextStation::Nobody.to_string(), "nobody");
    assert_eq!(NextStation::Station(9).to_string(), "9");
}

#[test]
fn words_that_no_answer_has() {
    for word in [
        0x0510_0000_0000_0014, // outcome 5
        0x03a0_0000_0000_0014, // state 10
        0x9810_0000_0000_0014, // refusal 19
        0x031a_0000_0000_0014, // sent kind 5
        0x0310_0000_00c0_0014, // notice 3
        0x0310_0000_0000_0015, // a bit of the last two
        0x0242_1400_2000_0014, // a token of 2 bytes
        0x0242_1420_3000_0014, // a token by an application
        0x0242_1500_3000_0014, // a token with a response type
        0x0310_0000_0000_1014, // a notice's address without a notice
        0x0310_0000_0900_0014, // 9 telegrams consumed
        0x0238_0000_0000_0014, // an application's telegram of 0 bytes
        0x8810_0000_0000_0014, // refusal 17, which ends a trace and refuses no entry
        0xc810_0000_0000_0014, // refusal 25, which a header meets and no entry
        0x6310_0000_0000_0014, // a refusal with an outcome
        0x6010_0000_0100_0014, // a refusal with a telegram consumed
        0x0310_0000_0000_01f8, // next station 126
    ] {
        let error = Answer::try_from(word).expect_err("not an answer");
        assert_eq!(error.word(), word);
    }
}

#[test]
fn answers_are_read_from_a_buffer() {
    let mut buffer = vec![0xa5; 20];
    buffer[..8].copy_from_slice(&<[u8; 8]>::from(LISTENS));
    let all: Vec<_> = answers(&buffer).collect();
    assert_eq!(all.len(), 2, "four bytes are left out");
    assert_eq!(all[0], Ok(LISTENS));
    assert!(all[1].is_err(), "a fill pattern is no answer");
    let run = Run::try_from(256 + 18).unwrap();
    assert_eq!(from_buffer(&buffer, &run), Ok(vec![LISTENS]));
}

#[test]
fn states_outcomes_and_types_have_document_01s_numbers() {
    for (number, &state) in (0..).zip(STATES) {
        assert_eq!(
            (u8::from(state), State::try_from(number)),
            (number, Ok(state))
        );
    }
    assert_eq!(u8::from(State::AwaitStatusResponse), 8);
    assert_eq!(u8::from(State::PassiveIdle), 9);
    assert!(State::try_from(10).is_err());
    assert_eq!(u8::from(Outcome::Delay), 4);
    assert_eq!(Outcome::try_from(2), Ok(Outcome::Transmission));
    assert!(Outcome::try_from(5).is_err());
    assert_eq!(u8::from(StationType::InRing), 3);
    assert_eq!(StationType::try_from(1), Ok(StationType::NotReady));
    assert!(StationType::try_from(4).is_err());
}

#[test]
fn refusals_have_the_documents_numbers() {
    let numbers: Vec<u8> = ALL.iter().map(|refusal| refusal.number()).collect();
    assert_eq!(numbers, (1..=36).collect::<Vec<u8>>());
    for &refusal in ALL {
        assert_eq!(Refusal::try_from(refusal.number()), Ok(refusal));
        assert_eq!(u8::from(refusal), refusal.number());
    }
    assert!(Refusal::try_from(0).is_err());
    let unknown = Refusal::try_from(255).expect_err("no refusal");
    assert_eq!(unknown.number(), 255);
    assert_eq!(unknown.to_string(), "255 is not the number of a refusal");
    assert_eq!(Refusal::Address.to_string(), "1 (address above 125)");
    assert_eq!(
        Refusal::ZeroBit.to_string(),
        "14 (a bit that should be zero)"
    );
    assert_eq!(
        Refusal::NoRoom.to_string(),
        "18 (no 8 bytes left for an answer)"
    );
    assert_eq!(
        Refusal::GapRoom.to_string(),
        "25 (rotation with no room for a gap poll)"
    );
    assert_eq!(
        Refusal::GapRoom.rule(),
        Some("must be at least slot bits + 100")
    );
    assert_eq!(Refusal::CheckByte.to_string(), "22 (check byte)");
    let of_frames: Vec<u8> = ALL
        .iter()
        .filter(|r| r.is_of_frames())
        .map(|r| r.number())
        .collect();
    assert_eq!(of_frames, [19, 20, 21, 22, 23, 24, 31, 32, 33, 34]);
    let of_setups: Vec<u8> = ALL
        .iter()
        .filter(|r| r.is_of_setups())
        .map(|r| r.number())
        .collect();
    assert_eq!(of_setups, [27, 28, 29, 30, 35]);
    let elsewhere: Vec<u8> = ALL
        .iter()
        .filter(|r| !r.is_of_replays())
        .map(|r| r.number())
        .collect();
    assert_eq!(
        elsewhere,
        [19, 20, 21, 22, 23, 24, 26, 27, 28, 29, 30, 31, 32, 33, 34, 35, 36]
    );
    assert_eq!(Refusal::Station.to_string(), "36 (no station)");
    assert_eq!(
        Refusal::AskedAddress.to_string(),
        "26 (who was heard: an address above 125)"
    );
    assert!(Answer::try_from(26 << 59).is_err());
    assert!(Answer::try_from(19 << 59).is_err());
}

/// hosts/c/amsulfezd.h has the same words for each number.
#[test]
fn the_c_header_says_the_same_words() {
    let header = include_str!("../../../c/amsulfezd.h");
    let (_, function) = header
        .split_once("amsulfezd_refusal_words(unsigned number)\n{")
        .expect("the function");
    let (function, _) = function.split_once("\n}").expect("its end");
    let quoted: Vec<&str> = function.split('"').skip(1).step_by(2).collect();
    let words: Vec<&str> = ALL.iter().map(|refusal| refusal.words()).collect();
    assert_eq!(quoted[1..quoted.len() - 1], words);
    let cases: Vec<&str> = function
        .split("case AMSULFEZD_REFUSAL_")
        .skip(1)
        .map(|case| case.split(':').next().expect("a name"))
        .collect();
    for (name, refusal) in cases.iter().zip(ALL) {
        let stated = format!("    AMSULFEZD_REFUSAL_{} = {}", name, refusal.number());
        assert!(header.contains(&stated), "{}", stated);
    }
}

#[test]
fn what_the_call_returns() {
    let run = |entries, ending| Ok(Run { entries, ending });
    assert_eq!(Run::try_from(0), run(0, None));
    assert_eq!(Run::try_from(6 * 256), run(6, None));
    assert_eq!(Run::try_from(5 * 256 + 17), run(5, Some(Refusal::Cut)));
    assert_eq!(Run::try_from(3), run(0, Some(Refusal::Hsa)));
    assert_eq!(Run::try_from(25), run(0, Some(Refusal::GapRoom)));
    assert!(Run::try_from(256 + 19).is_err());
    assert!(Run::try_from(26).is_err());
}

#[test]
fn the_text_of_replay_reads_back() {
    let text = "00000000000001fc\n0310000000000014\n2 17\n";
    let (read, run) = from_text(text).unwrap();
    assert_eq!(read.len(), 2);
    assert_eq!(
        run,
        Run {
            entries: 2,
            ending: Some(Refusal::Cut)
        }
    );
    assert_eq!(to_text(&read, &run), text);
    for (bad, word) in [
        ("", "no line"),
        ("0000000000000014\n", "last line"),
        ("0000000000000014\n2 0\n", "2 entries answered, but 1"),
        ("000000000000014\n1 0\n", "16 hexadecimal digits"),
        ("+000000000000014\n1 0\n", "16 hexadecimal digits"),
        ("0000000000000015\n1 0\n", "not an answer"),
        ("0 19\n", "19 is not an ending number"),
    ] {
        let error = from_text(bad).expect_err(bad).to_string();
        assert!(error.contains(word), "{}", error);
    }
}
