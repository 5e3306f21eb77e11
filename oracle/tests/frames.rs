//! That the comparison of frames can fail: wrong readers and writers, each of which must be found; and its programs.

mod programs;

use oracle::comparison::calls::{oracle, Left};
use oracle::frames::compare::{compare_frames, made};
use oracle::frames::frame::{read_frame, write_frame};
use oracle::frames::tries::Try;

type Reader = fn(&[u8]) -> u64;
type Writer = fn(u32, &mut [u8]) -> u64;

/// The text of a comparison with these calls, which must not hold.
fn found(read: Reader, write: Writer) -> String {
    let (said, held) = compare_frames(&|tries: &[Try]| made(read, write, tries), 5, 1000);
    assert!(!held, "{}", said);
    for part in ["seed 5, ", "the calls differ", "the oracle:  ", "the other:   "] {
        assert!(said.contains(part), "{}", said);
    }
    said
}

#[test]
fn the_oracle_agrees_with_itself() {
    let (said, held) = compare_frames(&oracle, 5, 1000);
    assert!(held, "{}", said);
    assert!(said.ends_with(", 0 differ\n"), "{}", said);
}

#[test]
fn wrong_readers_are_found() {
    let refuses: Reader = |_| 19;
    let says_one: Reader = |_| 0x4000_0000_0100;
    let uses_one_more: Reader = |frame| match read_frame(frame) {
        number if number < 256 => number,
        number => number + 256,
    };
    let end_byte_unasked: Reader = |frame| match read_frame(frame) {
        23 => 24,
        number => number,
    };
    let wants_no_more: Reader = |frame| match read_frame(frame) {
        number if number >= 256 && number / 256 % 256 < frame.len() as u64 => 19,
        number => number,
    };
    let no_data: Reader = |frame| match frame.first() {
        Some(0x68 | 0xa2) if read_frame(frame) >= 256 => 20,
        _ => read_frame(frame),
    };
    let one_length: Reader = |frame| if frame.starts_with(&[0x68, 249]) { 21 } else { read_frame(frame) };
    for read in [refuses, says_one, uses_one_more, end_byte_unasked, wants_no_more, no_data, one_length] {
        found(read, write_frame);
    }
}

#[test]
fn wrong_writers_are_found() {
    let refuses: Writer = |_, _| 18;
    let writes_nothing: Writer = |word, frame| write_frame(word, &mut frame.to_vec());
    let one_more: Writer = |word, frame| {
        let number = write_frame(word, frame);
        if let Some(byte) = frame.get_mut((number / 256) as usize) {
            *byte = 0;
        }
        number
    };
    let before_it_knows: Writer = |word, frame| {
        let mut whole = [0; 6];
        let count = (write_frame(word, &mut whole) / 256) as usize;
        frame.iter_mut().zip(&whole[..count]).for_each(|(to, from)| *to = *from);
        write_frame(word, frame)
    };
    let room_first: Writer = |word, frame| if frame.is_empty() { 18 } else { write_frame(word, frame) };
    for write in [refuses, writes_nothing, one_more, before_it_knows, room_first] {
        let said = found(read_frame, write);
        assert!(said.contains("words to write"), "{}", said);
    }
}

/// A call that does not come back is a difference.
#[test]
fn a_call_that_ends_is_found() {
    let ends = |tries: &[Try]| -> Vec<Left> {
        oracle(tries).into_iter().map(|left| left.filter(|made| made.returned != 23)).collect()
    };
    let (said, held) = compare_frames(&ends, 5, 1000);
    assert!(!held && said.contains("did not come back"), "{}", said);
}

const COMPARE_FRAMES: &str = env!("CARGO_BIN_EXE_compare_frames");

#[test]
fn calls_in_another_process_are_the_same() {
    programs::calls_in_another_process_are_the_same(COMPARE_FRAMES, "1000");
}

#[test]
fn bad_usage_is_one_line_and_status_2() {
    programs::bad_usage(COMPARE_FRAMES, &programs::BAD_USAGE);
}
