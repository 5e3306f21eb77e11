//! That the comparison of captures can fail: wrong importers and exporters, each of which must be found; the oracle there and
//! back; and its programs.

mod programs;

use oracle::captures::capture::{export_capture, import_capture, line_of, line_with};
use oracle::captures::compare::{compare_captures, made, Call};
use oracle::captures::tries::{parts, Try};
use oracle::comparison::calls::{oracle, Left};
use oracle::comparison::hex;
use oracle::frames::frame::{frame_of, read};

/// The text of a comparison with these calls, which must not hold.
fn found(import: Call, export: Call) -> String {
    let (said, held) = compare_captures(&|tries: &[Try]| made(import, export, tries), 5, 1000);
    assert!(!held, "{}", said);
    for part in ["seed 5, ", "the calls differ", "the oracle:  ", "the other:   "] {
        assert!(said.contains(part), "{}", said);
    }
    said
}

#[test]
fn the_oracle_agrees_with_itself() {
    let (said, held) = compare_captures(&oracle, 5, 1000);
    assert!(held, "{}", said);
    assert!(said.ends_with(", 0 differ\n"), "{}", said);
}

#[test]
fn wrong_importers_are_found() {
    let refuses: Call = |_, _, line, written| {
        (*line, *written) = (1, 0);
        31
    };
    let line_from_0: Call = |text, entries, line, written| {
        let number = import_capture(text, entries, line, written);
        *line = line.saturating_sub(1);
        number
    };
    let line_unsaid: Call = |text, entries, line, written| {
        let (before, number) = (*line, import_capture(text, entries, line, written));
        if number == 0 {
            *line = before;
        }
        number
    };
    let written_unsaid: Call = |text, entries, line, written| {
        let (before, number) = (*written, import_capture(text, entries, line, written));
        if number != 0 {
            *written = before;
        }
        number
    };
    let one_more: Call = |text, entries, line, written| {
        let number = import_capture(text, entries, line, written);
        if let Some(byte) = entries.get_mut(*written as usize) {
            *byte = 0;
        }
        number
    };
    let last_without_end: Call = |text, entries, line, written| match text.last() {
        None | Some(b'\n') => import_capture(text, entries, line, written),
        Some(_) => import_capture(&[text, b"\n"].concat(), entries, line, written),
    };
    let all_or_nothing: Call = |text, entries, line, written| {
        let mut copy = entries.to_vec();
        match import_capture(text, &mut copy, line, written) {
            0 => {
                entries.copy_from_slice(&copy);
                0
            }
            number => {
                *written = 0;
                number
            }
        }
    };
    let wrong = [refuses, line_from_0, line_unsaid, written_unsaid, one_more, last_without_end, all_or_nothing];
    for import in wrong {
        found(import, export_capture);
    }
}

#[test]
fn wrong_exporters_are_found() {
    let refuses: Call = |_, _, entry, written| {
        (*entry, *written) = (1, 0);
        12
    };
    let upper: Call = |entries, text, entry, written| {
        let number = export_capture(entries, text, entry, written);
        text[..*written as usize].make_ascii_uppercase();
        number
    };
    let one_more: Call = |entries, text, entry, written| {
        let number = export_capture(entries, text, entry, written);
        if let Some(byte) = text.get_mut(*written as usize) {
            *byte = 0;
        }
        number
    };
    let entry_from_0: Call = |entries, text, entry, written| {
        let number = export_capture(entries, text, entry, written);
        *entry = entry.saturating_sub(1);
        number
    };
    let cut_is_the_end: Call = |entries, text, entry, written| match export_capture(entries, text, entry, written) {
        17 => {
            *entry = 0;
            0
        }
        number => number,
    };
    for export in [refuses, upper, one_more, entry_from_0, cut_is_the_end] {
        found(import_capture, export);
    }
}

/// A call that does not come back is a difference.
#[test]
fn a_call_that_ends_is_found() {
    let ends = |tries: &[Try]| -> Vec<Left> {
        oracle(tries).into_iter().map(|left| left.filter(|made| made.returned != 33)).collect()
    };
    let (said, held) = compare_captures(&ends, 5, 1000);
    assert!(!held && said.contains("did not come back"), "{}", said);
}

/// What a call leaves with more than enough room.
fn whole(call: Call, bytes: &[u8]) -> (u64, Vec<u8>) {
    let (mut buffer, mut place, mut written) = (vec![0; 30 * bytes.len()], 0, 0);
    let number = call(bytes, &mut buffer, &mut place, &mut written);
    buffer.truncate(written as usize);
    (number, buffer)
}

/// An accepted text, exported from its entries: its lines again in lower case, as P1 writes them, without those that it does
/// not write; and these give the entries again but for telegrams left out.
#[test]
fn there_and_back() {
    let (mut texts, mut left_out) = (0, 0);
    let (_, tries) = parts(5, 3000).into_iter().find(|(name, _)| *name == "texts at random").expect("a part");
    for one in tries {
        let text = match one {
            Try::Import(text, _) => text,
            Try::Export(..) => continue,
        };
        let (number, entries) = whole(import_capture, &text);
        if number != 0 {
            continue;
        }
        let (mut lines, mut all) = (String::new(), true);
        for line in text.split_inclusive(|byte| *byte == b'\n') {
            let (time, bytes) = line_of(line).expect("a good line");
            match frame_of(read(&bytes).expect("a good frame").0) {
                Ok(frame) => lines.push_str(&line_with(time, &frame)),
                Err(_) => all = false,
            }
        }
        assert_eq!(whole(export_capture, &entries), (0, lines.clone().into_bytes()));
        if all {
            assert_eq!(whole(import_capture, lines.as_bytes()), (0, entries));
        }
        texts += 1;
        left_out += u32::from(!all);
    }
    assert!(texts > 500 && left_out > 100, "{} texts, {} with a line left out", texts, left_out);
}

const COMPARE_CAPTURES: &str = env!("CARGO_BIN_EXE_compare_captures");

#[test]
fn calls_in_another_process_are_the_same() {
    programs::calls_in_another_process_are_the_same(COMPARE_CAPTURES, "1000");
}

#[test]
fn bad_usage_is_one_line_and_status_2() {
    programs::bad_usage(COMPARE_CAPTURES, &programs::BAD_USAGE);
}

/// The stories of traces/captures, stated by hand, by the oracle: what is given, and the room, the bytes and the three numbers
/// that are left.
#[test]
fn the_stories_hold() {
    let folder = concat!(env!("CARGO_MANIFEST_DIR"), "/../traces/captures");
    let mut count = 0;
    for file in std::fs::read_dir(folder).expect("the folder") {
        let path = file.expect("a file").path();
        let (given, import, call): (_, _, Call) = match path.extension().and_then(|ending| ending.to_str()) {
            Some("imported") => ("capture", true, import_capture),
            Some("exported") => ("entries", false, export_capture),
            _ => continue,
        };
        let read = |path: &std::path::Path| std::fs::read(path).expect("a file");
        let (stated, given) = (read(&path), read(&path.with_extension(given)));
        let first = String::from_utf8_lossy(stated.split(|byte| *byte == b'\n').next().expect("a line")).into_owned();
        let room = first.strip_prefix("room ").expect("the room").parse().expect("a number");
        let (mut buffer, mut place, mut written) = (vec![0xa5; room], 0, 0);
        let number = call(&given, &mut buffer, &mut place, &mut written);
        let (bytes, kept) = buffer.split_at(written as usize);
        assert!(kept.iter().all(|byte| *byte == 0xa5), "{}", path.display());
        let mut left = format!("room {}\n", room).into_bytes();
        let mut rest = bytes;
        while import && !rest.is_empty() {
            let (entry, after) = rest.split_at(1 + usize::from(rest[0]));
            left.extend(format!("{}\n", hex(entry)).bytes());
            rest = after;
        }
        left.extend(rest);
        left.extend(format!("{} {} {}\n", number, place, written).bytes());
        assert_eq!(String::from_utf8_lossy(&left), String::from_utf8_lossy(&stated), "{}", path.display());
        count += 1;
    }
    assert!(count > 40, "{} stories", count);
}
