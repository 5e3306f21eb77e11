//! Document 02, P1: a reader and a writer of frames, from the request's words. Fields are taken by division, as the
//! numbers that they are; the telegram word is put together by document 01's records.

use crate::records::Telegram;

/// The start bytes: "SD1 (10h), SD2 (68h), SD3 (A2h), SD4 (DCh), SC (E5h), end byte 16h".
pub const SD1: u8 = 0x10;
pub const SD2: u8 = 0x68;
pub const SD3: u8 = 0xa2;
pub const SD4: u8 = 0xdc;
pub const SC: u8 = 0xe5;
pub const END: u8 = 0x16;

/// "Function code 49h without data is the status request".
pub const STATUS_REQUEST: u8 = 0x49;

/// "the length is outside 4 to 249"
pub const LENGTHS: std::ops::RangeInclusive<usize> = 4..=249;

/// So many data bytes a frame of SD3 has.
pub const SD3_DATA: usize = 8;

/// "the sum modulo 256 of the bytes from the destination to the last data byte"
pub fn check_byte(body: &[u8]) -> u8 {
    let sum: usize = body.iter().map(|byte| usize::from(*byte)).sum();
    (sum % 256) as u8
}

/// A frame with a check byte: what stands before the destination, the bytes from there to the last data byte, and the two
/// that follow.
pub fn framed(before: &[u8], body: &[u8]) -> Vec<u8> {
    [before, body, &[check_byte(body), END]].concat()
}

/// The telegram in a frame at the start of these bytes, and how many of them it takes; or the number of the refusal.
pub fn read(bytes: &[u8]) -> Result<(Telegram, usize), u8> {
    // "19 empty; 20 start byte"
    let start = *bytes.first().ok_or(19)?;
    let (before, body) = match start {
        SC => return Ok((Telegram::ShortConfirmation, 1)),
        SD4 => (1, 2),
        SD1 => (1, 3),
        SD3 => (1, 3 + SD3_DATA),
        SD2 => (4, length_of(bytes)?),
        _ => return Err(20),
    };
    // "19 cut short": a check byte and an end byte stand behind all but a token
    let used = before + body + if start == SD4 { 0 } else { 2 };
    let frame = bytes.get(..used).ok_or(19)?;
    let (body, rest) = frame[before..].split_at(body);
    if let [check, end] = *rest {
        // "22 check byte; 23 end byte"
        if check != check_byte(body) {
            return Err(22);
        }
        if end != END {
            return Err(23);
        }
    }
    // "24 address extension bit": an address has seven bits
    let (destination, source) = (body[0], body[1]);
    if destination >= 128 || source >= 128 {
        return Err(24);
    }
    let telegram = match body.get(2) {
        None => Telegram::Token { destination, source },
        Some(code) => telegram_of(*code, destination, source, start == SD1)?,
    };
    Ok((telegram, used))
}

/// "19 for a cut SD2 header, then 21 if its repeated bytes differ or the length is outside 4 to 249": the length twice
/// between two start bytes.
fn length_of(bytes: &[u8]) -> Result<usize, u8> {
    let header = bytes.get(..4).ok_or(19)?;
    let length = usize::from(header[1]);
    if header[2] != header[1] || header[3] != header[0] || !LENGTHS.contains(&length) {
        return Err(21);
    }
    Ok(length)
}

/// "34 top bit of the function code set"; "49h without data is the status request; bit 6 marks other requests; in a
/// response bits 5 and 4 are the type, the low four the status".
fn telegram_of(code: u8, destination: u8, source: u8, without_data: bool) -> Result<Telegram, u8> {
    match code / 64 {
        0 => Ok(Telegram::Response { destination, source, station_type: code / 16, status: code % 16 }),
        1 => {
            let status_request = without_data && code == STATUS_REQUEST;
            Ok(Telegram::Request { destination, source, status_request })
        }
        _ => Err(34),
    }
}

/// The frame of a telegram; or the number of the refusal: "Tokens, short confirmations, status requests and data-free
/// responses are written, with SD4, SC or SD1"; "34 for any other request".
pub fn frame_of(telegram: Telegram) -> Result<Vec<u8>, u8> {
    match telegram {
        Telegram::Token { destination, source } => Ok(vec![SD4, destination, source]),
        Telegram::ShortConfirmation => Ok(vec![SC]),
        Telegram::Request { status_request: false, .. } => Err(34),
        Telegram::Request { destination, source, .. } => Ok(framed(&[SD1], &[destination, source, STATUS_REQUEST])),
        Telegram::Response { destination, source, station_type, status } => {
            Ok(framed(&[SD1], &[destination, source, 16 * station_type + status]))
        }
    }
}

/// The call: word × 65536 + bytes used × 256, or the number alone.
pub fn read_frame(frame: &[u8]) -> u64 {
    match read(frame) {
        Ok((telegram, used)) => word_of(telegram) * 65536 + used as u64 * 256,
        Err(number) => number.into(),
    }
}

/// The call: bytes written × 256 + number. "The writer gives 14 for a word that document 01 refuses, 34 for any other
/// request, 18 for no room, and then writes nothing."
pub fn write_frame(word: u32, frame: &mut [u8]) -> u64 {
    match written(word, frame) {
        Ok(count) => count as u64 * 256,
        Err(number) => number.into(),
    }
}

fn written(word: u32, frame: &mut [u8]) -> Result<usize, u8> {
    let telegram = Telegram::decode(&word.to_be_bytes()).ok_or(14)?;
    let bytes = frame_of(telegram)?;
    frame.get_mut(..bytes.len()).ok_or(18)?.copy_from_slice(&bytes);
    Ok(bytes.len())
}

/// A telegram's word as a number.
pub fn word_of(telegram: Telegram) -> u64 {
    telegram.encode().iter().fold(0, |word, byte| 256 * word + u64::from(*byte))
}

#[cfg(test)]
mod tests {
    use super::*;

    /// What the call returns for a frame that is read.
    fn says(word: u64, used: u64) -> u64 {
        word << 16 | used << 8
    }

    /// Frames stated by hand, the words as docs/FORMAT.md has them.
    const FRAMES: [(&[u8], u64); 6] = [
        (&[0xdc, 9, 9], 0x0489_0000),
        (&[0xe5], 0x4000_0000),
        // status request from 9 to 5: 05 + 09 + 49 = 57
        (&[0x10, 0x05, 0x09, 0x49, 0x57, 0x16], 0x8289_8000),
        // response from 20 to 5, slave, status 8: 05 + 14 + 08 = 21
        (&[0x10, 0x05, 0x14, 0x08, 0x21, 0x16], 0xc294_1000),
        // response from 126 to 127, in ring, status 15: 7f + 7e + 3f = 13c
        (&[0x10, 0x7f, 0x7e, 0x3f, 0x3c, 0x16], 0xfffe_7e00),
        (&[0xdc, 0x7f, 0x7e], 0x3ffe_0000),
    ];

    #[test]
    fn frames_there_and_back() {
        for (frame, word) in FRAMES {
            let used = frame.len() as u64;
            assert_eq!(read_frame(frame), says(word, used), "{:02x?}", frame);
            assert_eq!(read_frame(&[frame, &[0x68, 0xff]].concat()), says(word, used), "{:02x?}", frame);
            for room in 0..9 {
                let mut buffer = vec![0xa5; room];
                let number = write_frame(word as u32, &mut buffer);
                if room < frame.len() {
                    assert_eq!((number, buffer), (18, vec![0xa5; room]));
                } else {
                    assert_eq!(number, used << 8);
                    assert_eq!(buffer, [frame, &vec![0xa5; room - frame.len()]].concat());
                }
            }
        }
    }

    #[test]
    fn frames_with_data() {
        // a response of 20 to 5 with 12 34: le = 5, 05 + 14 + 08 + 12 + 34 = 67
        let sd2 = [0x68, 5, 5, 0x68, 0x05, 0x14, 0x08, 0x12, 0x34, 0x67, 0x16];
        assert_eq!(read_frame(&sd2), says(0xc294_1000, 11));
        // a request of 9 to 5 with function code 49h and eight bytes 01: 05 + 09 + 49 + 08 = 5f
        let sd3 = [0xa2, 5, 9, 0x49, 1, 1, 1, 1, 1, 1, 1, 1, 0x5f, 0x16];
        assert_eq!(read_frame(&sd3), says(0x8289_0000, 14));
        // the same function code in SD2: 05 + 09 + 49 + 00 = 57
        assert_eq!(read_frame(&[0x68, 4, 4, 0x68, 5, 9, 0x49, 0, 0x57, 0x16]), says(0x8289_0000, 10));
        // 59h, 69h and 79h are other requests: 05 + 09 + 59 = 67
        for (code, check) in [(0x59, 0x67), (0x69, 0x77), (0x79, 0x87), (0x48, 0x56), (0x4a, 0x58), (0x40, 0x4e)] {
            assert_eq!(read_frame(&[0x10, 5, 9, code, check, 0x16]), says(0x8289_0000, 6));
        }
        // the longest: le = 249, 246 data bytes of zero
        let mut longest = vec![0x68, 249, 249, 0x68, 1, 2, 3];
        longest.resize(253, 0);
        longest.extend([6, 0x16]);
        assert_eq!(read_frame(&longest), says(0xc082_0600, 255));
    }

    #[test]
    fn the_readers_refusals_in_their_order() {
        let refused: [(&[u8], u64); 38] = [
            (&[], 19),
            (&[0x00], 20),
            (&[0x16], 20),
            (&[0xff, 0x68], 20),
            (&[0x68], 19),
            (&[0x68, 0x03], 19),
            (&[0x68, 0x04, 0x05], 19),
            (&[0x68, 0x03, 0x03, 0x68], 21),
            (&[0x68, 0xfa, 0xfa, 0x68], 21),
            (&[0x68, 0x04, 0x05, 0x68], 21),
            (&[0x68, 0x05, 0x04, 0x68], 21),
            (&[0x68, 0x04, 0x04, 0x69], 21),
            (&[0x68, 0x04, 0x04, 0x68], 19),
            (&[0x68, 0xf9, 0xf9, 0x68], 19),
            (&[0x68, 4, 4, 0x68, 5, 9, 0x49, 0, 0x58], 19),
            (&[0x68, 4, 4, 0x68, 5, 9, 0x49, 0, 0x58, 0x17], 22),
            (&[0x68, 4, 4, 0x68, 5, 9, 0x49, 0, 0x57, 0x17], 23),
            (&[0x68, 4, 4, 0x68, 0x85, 9, 0x49, 0, 0xd7, 0x16], 24),
            (&[0x68, 4, 4, 0x68, 5, 9, 0xc9, 0, 0xd7, 0x16], 34),
            (&[0x10], 19),
            (&[0x10, 5, 9, 0x49, 0x57], 19),
            (&[0x10, 5, 9, 0x49, 0x58], 19),
            (&[0x10, 5, 9, 0x49, 0x58, 0x17], 22),
            (&[0x10, 5, 9, 0x49, 0x67, 0x16], 22),
            (&[0x10, 5, 9, 0x49, 0x57, 0x00], 23),
            (&[0x10, 0x85, 9, 0x49, 0xd7, 0x17], 23),
            (&[0x10, 0x85, 9, 0x49, 0xd7, 0x16], 24),
            (&[0x10, 5, 0x89, 0x49, 0xd7, 0x16], 24),
            // 85 + 89 + c9 = 1d7: the sum is over the bytes as they stand
            (&[0x10, 0x85, 0x89, 0xc9, 0xd7, 0x16], 24),
            (&[0x10, 5, 9, 0xc9, 0xd7, 0x16], 34),
            (&[0x10, 5, 9, 0x80, 0x8e, 0x16], 34),
            (&[0xa2, 5, 9, 0x49, 1, 1, 1, 1, 1, 1, 1, 1, 0x5f], 19),
            (&[0xa2, 5, 9, 0x49, 1, 1, 1, 1, 1, 1, 1, 1, 0x5e, 0x16], 22),
            (&[0xa2, 5, 9, 0x80, 0, 0, 0, 0, 0, 0, 0, 0, 0x8e, 0x16], 34),
            (&[0xdc], 19),
            (&[0xdc, 0x80], 19),
            (&[0xdc, 0x80, 0x00], 24),
            (&[0xdc, 0x00, 0xff], 24),
        ];
        for (frame, number) in refused {
            assert_eq!(read_frame(frame), number, "{:02x?}", frame);
        }
    }

    /// A bad word is 14 without room too, and another request 34.
    #[test]
    fn the_writers_refusals_in_their_order() {
        let words = [
            (0x0489_0001, 14),
            (0x0489_8000, 14),
            (0x4080_0000, 14),
            (0x8289_2000, 14),
            (0x8289_0001, 14),
            (0xc294_9000, 14),
            (0x8289_0000, 34),
        ];
        for (word, number) in words {
            for room in 0..9 {
                let mut buffer = vec![0xa5; room];
                assert_eq!((write_frame(word, &mut buffer), buffer), (number, vec![0xa5; room]), "{:08x}", word);
            }
        }
    }
}
