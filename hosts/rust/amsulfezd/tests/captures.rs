//! Captures: the proved calls against the stories of traces/captures, where the library is linked, and every room for one of
//! them.

#![allow(unknown_lints, unexpected_cfgs)]
#![cfg(linked)]

mod stored;

use amsulfezd::capture::*;
use amsulfezd::record::{Poll, Telegram};
use amsulfezd::refusal::Refusal;
use amsulfezd::trace::{Header, TraceBuilder};
use stored::{files, traces};

/// What a story says that a call leaves: the room, the bytes, and the refusal with its place.
fn left(text: &[u8], entries: bool) -> (usize, Vec<u8>, Written) {
    let lines: Vec<&[u8]> = text.split_inclusive(|byte| *byte == b'\n').collect();
    let (first, rest) = lines.split_first().expect("the room");
    let (last, parts) = rest.split_last().expect("the numbers");
    let words = |line: &[u8]| String::from_utf8(line.to_vec()).expect("text");
    let room = words(first).trim().replace("room ", "").parse();
    let bytes = parts.concat();
    let bytes = if entries {
        let digits: Vec<u8> = bytes.into_iter().filter(|byte| *byte != b'\n').collect();
        let pair = |pair: &[u8]| u8::from_str_radix(&words(pair), 16).expect("two digits");
        digits.chunks(2).map(pair).collect()
    } else {
        bytes
    };
    let numbers: Vec<u64> = words(last)
        .split_whitespace()
        .map(|word| word.parse().expect("a number"))
        .collect();
    let refused = Refusal::try_from(numbers[0] as u8)
        .ok()
        .map(|refusal| Refused {
            refusal,
            at: numbers[1],
        });
    let written = Written {
        bytes: numbers[2] as usize,
        refused,
    };
    assert_eq!(bytes.len(), written.bytes);
    (room.expect("a number"), bytes, written)
}

/// Every story of one kind, by this call.
fn as_the_stories_say(ending: &str, given: &str, call: fn(&[u8], &mut [u8]) -> Written) -> usize {
    let stories = files(&traces().join("captures"), ending);
    for path in &stories {
        let read = |path| std::fs::read(path).expect("a file");
        let (room, bytes, written) = left(&read(path.clone()), ending == "imported");
        let mut buffer = vec![0xa5; room];
        let got = call(&read(path.with_extension(given)), &mut buffer);
        assert_eq!(got, written, "{}", path.display());
        assert_eq!(buffer[..got.bytes], bytes, "{}", path.display());
        assert!(buffer[got.bytes..].iter().all(|byte| *byte == 0xa5));
    }
    stories.len()
}

#[test]
fn captures_are_imported_as_their_stories_say() {
    assert!(as_the_stories_say("imported", "capture", import) > 30);
}

#[test]
fn entries_are_exported_as_their_stories_say() {
    assert!(as_the_stories_say("exported", "entries", export) > 5);
}

/// The site's capture behind a header and online is its trace, and that gives the stored text.
#[test]
fn the_sites_capture_there_and_back() {
    let read = |name: &str| std::fs::read(traces().join("captures").join(name)).expect("a file");
    let (entries, refused) = import_whole(&read("site.capture"));
    assert_eq!(refused, None);
    let mut trace = TraceBuilder::new(Header::new(5, 6, 1));
    trace.online();
    let trace = [trace.into_bytes(), entries.clone()].concat();
    assert_eq!(trace, read("site.trace"));
    assert_eq!(export_whole(&entries), (read("site-again.capture"), None));
}

/// A capture with every room: as many whole lines as it has room for, and no byte more.
#[test]
fn every_room() {
    let text = b"1 dc0509\n1 e5\n2 e5\n";
    let telegrams = [Telegram::token(9, 5), Telegram::ShortConfirmation];
    let entries = |lines: usize| {
        let mut trace = TraceBuilder::new(Header::new(5, 6, 1));
        let first = telegrams[..lines.min(2)]
            .iter()
            .fold(Poll::at(1), |poll, telegram| poll.telegram(*telegram));
        if lines > 0 {
            trace.poll(&first).expect("it fits");
        }
        if lines == 3 {
            let second = Poll::at(2).telegram(Telegram::ShortConfirmation);
            trace.poll(&second).expect("it fits");
        }
        trace.into_bytes()[16..].to_vec()
    };
    let lengths = [0, ENTRY_LENGTH, ENTRY_LENGTH + ADDED_LENGTH, 42];
    for room in 0..50 {
        let lines = lengths.iter().rposition(|length| *length <= room);
        let lines = lines.expect("none at least");
        let mut buffer = vec![0xa5; room];
        let written = import(text, &mut buffer);
        let refused = Refused {
            refusal: Refusal::NoRoom,
            at: lines as u64 + 1,
        };
        assert_eq!(
            written,
            Written {
                bytes: lengths[lines],
                refused: Some(refused).filter(|_| lines < 3)
            }
        );
        assert_eq!(buffer[..written.bytes], entries(lines));
        assert!(buffer[written.bytes..].iter().all(|byte| *byte == 0xa5));
    }
}
