//! Frames: the words of telegrams, and, where the library is linked, the proved calls against frames that are stated by
//! hand or built here.

#![allow(unknown_lints, unexpected_cfgs)]

use amsulfezd::record::{StationType, Telegram};

/// Telegrams with their words, as docs/FORMAT.md has them.
fn stated() -> [(Telegram, u32); 6] {
    let response = Telegram::response_with_status;
    [
        (Telegram::token(9, 9), 0x0489_0000),
        (Telegram::ShortConfirmation, 0x4000_0000),
        (Telegram::status_request(9, 5), 0x8289_8000),
        (Telegram::request(9, 5), 0x8289_0000),
        (response(20, 5, StationType::Slave, 8), 0xc294_1000),
        (response(126, 127, StationType::InRing, 15), 0xfffe_7e00),
    ]
}

#[test]
fn a_telegram_and_its_word() {
    for (telegram, word) in stated() {
        assert_eq!(telegram.word(), Ok(word));
        assert_eq!(Telegram::from_word(word), telegram);
    }
    let unfit = Telegram::token(128, 0).word().expect_err("eight bits");
    assert_eq!(unfit.to_string(), "does not fit into a trace: address");
}

#[cfg(linked)]
mod calls {
    use super::stated;
    use amsulfezd::frame::*;
    use amsulfezd::record::{StationType, Telegram};
    use amsulfezd::refusal::Refusal;

    /// A frame with a check byte and an end byte.
    fn framed(before: &[u8], body: &[u8]) -> Vec<u8> {
        let check = body.iter().fold(0, |sum: u8, byte| sum.wrapping_add(*byte));
        [before, body, &[check, END]].concat()
    }

    fn sd2(body: &[u8]) -> Vec<u8> {
        let length = body.len() as u8;
        framed(&[SD2, length, length, SD2], body)
    }

    fn sd3(body: &[u8]) -> Vec<u8> {
        framed(&[SD3], body)
    }

    /// How the first telegrams of `stated` stand on the bus; the other request has none that is written.
    const WRITTEN: [&[u8]; 6] = [
        &[0xdc, 9, 9],
        &[0xe5],
        &[0x10, 5, 9, 0x49, 0x57, 0x16],
        &[],
        &[0x10, 5, 20, 0x08, 0x21, 0x16],
        &[0x10, 0x7f, 0x7e, 0x3f, 0x3c, 0x16],
    ];

    /// Every room from none to more than enough: the frame and no byte more, or nothing.
    #[test]
    fn stated_frames_are_written_and_read() {
        for ((telegram, word), bytes) in stated().into_iter().zip(WRITTEN) {
            for room in 0..=8 {
                let mut buffer = vec![0xa5; room];
                let written = write(word, &mut buffer);
                let expected = match bytes.len() {
                    0 => Err(Refusal::FunctionCode),
                    length if length > room => Err(Refusal::NoRoom),
                    length => Ok(length),
                };
                assert_eq!(written, expected, "{:?}, room {}", telegram, room);
                let count = expected.unwrap_or(0);
                assert_eq!(buffer[..count], bytes[..count]);
                assert!(buffer[count..].iter().all(|&byte| byte == 0xa5));
            }
            if !bytes.is_empty() {
                let used = bytes.len();
                let frame = Frame {
                    telegram,
                    word,
                    used,
                };
                assert_eq!(read(bytes), Ok(frame));
                assert_eq!(read(&[bytes, &[0xff; 3]].concat()), Ok(frame));
                for end in 0..used {
                    assert_eq!(read(&bytes[..end]), Err(Refusal::FrameCut));
                }
            }
        }
    }

    /// Every type and status, and addresses at the borders, there and back.
    #[test]
    fn responses_there_and_back() {
        for code in 0..64 {
            let station_type = StationType::try_from(code / 16).expect("a type");
            for (source, destination) in [(0, 127), (126, 5), (125, 1)] {
                let telegram =
                    Telegram::response_with_status(source, destination, station_type, code % 16);
                let mut bytes = [0; LONGEST_WRITTEN];
                assert_eq!(write(telegram.word().expect("it fits"), &mut bytes), Ok(6));
                assert_eq!(bytes[..], framed(&[SD1], &[destination, source, code]));
                assert_eq!(read(&bytes).map(|frame| frame.telegram), Ok(telegram));
            }
        }
    }

    /// Data are left out; 49h with data is another request. Every length of SD2.
    #[test]
    fn frames_with_data() {
        let telegram = |frame: &[u8]| read(frame).map(|frame| (frame.telegram, frame.used));
        for length in 4..=249 {
            let mut body = vec![5, 9, STATUS_REQUEST];
            body.resize(length, 0x68);
            assert_eq!(
                telegram(&sd2(&body)),
                Ok((Telegram::request(9, 5), length + 6))
            );
            body[2] = 0x21;
            let response = Telegram::response_with_status(9, 5, StationType::WithoutToken, 1);
            assert_eq!(telegram(&sd2(&body)), Ok((response, length + 6)));
        }
        let mut body = vec![5, 9, STATUS_REQUEST];
        body.resize(11, 0x16);
        assert_eq!(telegram(&sd3(&body)), Ok((Telegram::request(9, 5), 14)));
        let longest = sd2(&[1; 249]);
        assert_eq!(longest.len(), LONGEST_READ);
    }

    #[test]
    fn refused_frames() {
        let body = [5, 9, 0x49, 0];
        let changed = |at: usize, byte: u8| {
            let mut frame = sd2(&body);
            frame[at] = byte;
            read(&frame).expect_err("a refusal")
        };
        assert_eq!(read(&[]), Err(Refusal::FrameCut));
        assert_eq!(read(&[0x16]), Err(Refusal::StartByte));
        assert_eq!(read(&[0x68, 3]), Err(Refusal::FrameCut));
        assert_eq!(read(&[0x68, 3, 3, 0x68]), Err(Refusal::FrameHeader));
        assert_eq!(read(&sd2(&[1; 250])), Err(Refusal::FrameHeader));
        assert_eq!(read(&sd2(&[1; 3])), Err(Refusal::FrameHeader));
        assert_eq!(changed(1, 5), Refusal::FrameHeader);
        assert_eq!(changed(2, 5), Refusal::FrameHeader);
        assert_eq!(changed(3, 0x69), Refusal::FrameHeader);
        assert_eq!(changed(4, 6), Refusal::CheckByte);
        assert_eq!(changed(8, 0x58), Refusal::CheckByte);
        assert_eq!(changed(9, 0x17), Refusal::EndByte);
        assert_eq!(
            read(&sd2(&[0x85, 9, 0xc9, 0])),
            Err(Refusal::AddressExtension)
        );
        assert_eq!(
            read(&sd2(&[5, 0x89, 0x49, 0])),
            Err(Refusal::AddressExtension)
        );
        assert_eq!(read(&[0xdc, 5, 0x80]), Err(Refusal::AddressExtension));
        assert_eq!(read(&sd2(&[5, 9, 0xc9, 0])), Err(Refusal::FunctionCode));
    }

    /// Each bit that a kind of telegram does not have.
    #[test]
    fn refused_words() {
        let good = [
            (0x0489_0000u32, 0x0000_ffffu32),
            (0x4000_0000, 0x3fff_ffff),
            (0x8289_8000, 0x7fff),
            (0xc294_1000, 0x81ff),
        ];
        for (word, zero) in good {
            for bit in (0..32)
                .map(|place| 1 << place)
                .filter(|bit| zero & bit != 0)
            {
                let mut buffer = [0xa5; 8];
                assert_eq!(
                    write(word | bit, &mut buffer),
                    Err(Refusal::ZeroBit),
                    "{:08x}",
                    word | bit
                );
                assert_eq!(write(word | bit, &mut []), Err(Refusal::ZeroBit));
                assert_eq!(buffer, [0xa5; 8]);
            }
        }
    }
}
