//! Document 02, P6: the life counters, against counts stated by hand, the order of the refusals, and that the comparison finds
//! wrong calls.

use oracle::comparison::compare::compare_traces;
use oracle::comparison::run::{Call, Calls, ORACLE};
use oracle::counts::{count, trace_counts, Counted, Counts, COUNTS};
use oracle::editions::Edition;
use oracle::records::{PollRecord, Telegram};
use oracle::trace::{replay_trace, Header};

/// A poll of a station with one application that declines.
fn hearing(clock: u64, telegrams: &[Telegram]) -> Vec<u8> {
    PollRecord { telegrams: telegrams.to_vec(), ..PollRecord::silent(clock, 1) }.entry()
}

fn silent(clock: u64) -> Vec<u8> {
    hearing(clock, &[])
}

/// Entries, each with the counts after it: claims, removals, meetings.
type Life = Vec<(Vec<u8>, [u32; 3])>;

/// Station 5 meets its address twice and is offline, with one telegram more; put online it claims at once, and sends its second
/// token; it goes offline and joins 9 in its ring; a token by 5 is heard in CheckTokenPass; in ActiveIdle a request by 5 is no
/// collision; then 9 is given three tokens and removed.
fn life() -> Life {
    let by_us = Telegram::token(5, 9);
    let request = Telegram::Request { destination: 20, source: 5, status_request: false };
    vec![
        (vec![0], [0, 0, 0]),
        (hearing(4096, &[by_us]), [0, 0, 1]),
        (hearing(8192, &[by_us, by_us]), [0, 0, 2]),
        (vec![0], [0, 0, 2]),
        (silent(16384), [1, 0, 2]),
        (silent(16600), [1, 0, 2]),
        (vec![1], [1, 0, 2]),
        (vec![0], [1, 0, 2]),
        (hearing(20480, &[Telegram::token(9, 9); 2]), [1, 0, 2]),
        (hearing(20780, &[Telegram::status_request(9, 5)]), [1, 0, 2]),
        (silent(20864), [1, 0, 2]),
        (hearing(21248, &[Telegram::token(9, 5)]), [1, 0, 2]),
        (silent(21504), [1, 0, 2]),
        (silent(21760), [1, 0, 2]),
        (hearing(22016, &[by_us]), [1, 0, 3]),
        (hearing(22272, &[request, Telegram::token(9, 5)]), [1, 0, 3]),
        (silent(22528), [1, 0, 3]),
        (silent(22784), [1, 0, 3]),
        (silent(23552), [1, 0, 3]),
        (silent(24576), [1, 0, 3]),
        (silent(25600), [1, 1, 3]),
        // a record that is refused: its length byte says 3
        (vec![3, 0, 0, 0], [1, 1, 3]),
    ]
}

/// In ListenToken two telegrams by 5 and more of them in one poll; in ActiveIdle rows that another's token ends, and two in a
/// row with more behind them; a token that another's jump takes 12 out by.
fn rows() -> Life {
    let (by_us, to_12, to_9) = (Telegram::token(5, 9), Telegram::token(9, 12), Telegram::token(12, 9));
    let response = Telegram::Response { destination: 9, source: 5, station_type: 3, status: 0 };
    vec![
        (vec![0], [0, 0, 0]),
        (hearing(1000, &[by_us, to_12, response, by_us, by_us]), [0, 0, 2]),
        (hearing(2000, &[by_us]), [0, 0, 2]),
        (vec![0], [0, 0, 2]),
        // 9 to 12 and back twice: ready; 12 is the station before us
        (hearing(3000, &[to_12, to_9, to_12, to_9]), [0, 0, 2]),
        // a jump over 12 takes it out
        (hearing(3300, &[Telegram::token(9, 20), Telegram::token(20, 9)]), [0, 0, 2]),
        (hearing(3600, &[Telegram::status_request(20, 5)]), [0, 0, 2]),
        (silent(3700), [0, 0, 2]),
        // it is in ActiveIdle: one, another's token, one, a response by 5, and that row's second
        (hearing(4400, &[by_us, to_12, by_us, response]), [0, 0, 4]),
        (hearing(4600, &[by_us, by_us, to_12, by_us]), [0, 0, 5]),
        // it listens again: the count there begins anew
        (hearing(4800, &[by_us]), [0, 0, 6]),
        // lost: no telegram is looked at in the poll that claims
        (hearing(11200, &[by_us]), [1, 0, 6]),
    ]
}

/// What is left of 15 bytes and returned.
fn ask(trace: &[u8]) -> (u64, Vec<u8>) {
    let mut counts = vec![0xa5; 15];
    (trace_counts(trace, &mut counts), counts)
}

/// The bytes of counts, and three that keep their value.
fn bytes(counts: [u32; 3]) -> Vec<u8> {
    [counts.map(u32::to_be_bytes).concat(), vec![0xa5; 3]].concat()
}

#[test]
fn counts_by_hand() {
    for edition in [Edition::First, Edition::Second] {
        for life in [life(), rows()] {
            let mut trace = Header::EXAMPLE_12.write_as(edition);
            let mut before = [0; 3];
            assert_eq!(ask(&trace), (0, bytes(before)));
            for (i, (entry, counts)) in life.iter().enumerate() {
                // each place to cut the entry: what the whole ones make is there
                for length in 1..entry.len() {
                    let cut = [&trace, &entry[..length]].concat();
                    assert_eq!(ask(&cut), (256 * i as u64 + 17, bytes(before)), "entry {} cut", i + 1);
                }
                trace.extend(entry);
                assert_eq!(ask(&trace), (256 * (i as u64 + 1), bytes(*counts)), "entry {}", i + 1);
                before = *counts;
            }
        }
    }
}

#[test]
fn the_order_of_the_refusals() {
    let good = [Header::EXAMPLE_12.write(), life().into_iter().flat_map(|(entry, _)| entry).collect()].concat();
    let mut bad = good.clone();
    bad[0] = 126;
    let cut = &good[..15];
    assert_eq!(ask(&bad), (1, vec![0xa5; 15]));
    assert_eq!(ask(cut), (17, vec![0xa5; 15]));
    assert_eq!(ask(&[]), (17, vec![0xa5; 15]));
    for room in 0..COUNTS {
        let mut counts = vec![0xa5; room];
        assert_eq!(trace_counts(&good, &mut counts), 18);
        assert_eq!(trace_counts(&bad, &mut counts), 1);
        assert_eq!(trace_counts(cut, &mut counts), 17);
        assert_eq!(counts, vec![0xa5; room]);
    }
    assert_eq!(trace_counts(&good, &mut [0; COUNTS]), 22 * 256);
    // room for answers is not asked for
    assert_eq!(replay_trace(&good, &mut []), 18);
}

#[test]
fn wrong_calls_are_found() {
    // what the oracle left, changed where it was written
    fn changed(trace: &[u8], counts: &mut [u8], change: fn(&mut [u8])) -> u64 {
        let returned = trace_counts(trace, counts);
        if [0, 17].contains(&(returned % 256)) && returned != 17 {
            change(&mut counts[..COUNTS]);
        }
        returned
    }
    let none = |trace: &[u8], counts: &mut [u8]| changed(trace, counts, |counts| counts.fill(0));
    let swapped = |trace: &[u8], counts: &mut [u8]| changed(trace, counts, |counts| counts.rotate_left(4));
    let backwards = |trace: &[u8], counts: &mut [u8]| {
        changed(trace, counts, |counts| counts.chunks_mut(4).for_each(|count| count.reverse()))
    };
    let tail = |trace: &[u8], counts: &mut [u8]| {
        let returned = trace_counts(trace, counts);
        counts.iter_mut().skip(COUNTS).for_each(|byte| *byte = 0x11);
        returned
    };
    let room_first = |trace: &[u8], counts: &mut [u8]| match counts.len() {
        0..=11 => 18,
        _ => trace_counts(trace, counts),
    };
    let panics = |_: &[u8], _: &mut [u8]| -> u64 { panic!("planted") };
    let wrong: [Call; 6] = [&none, &swapped, &backwards, &tail, &room_first, &panics];
    for (i, call) in wrong.iter().enumerate() {
        let (said, held) = compare_traces(Calls { trace_counts: *call, ..ORACLE }, 5, 100);
        assert!(!held, "{}: {}", i, said);
        for part in ["seed 5, trace ", "the life is counted otherwise", "the oracle:  ", "the other:   "] {
            assert!(said.contains(part), "{}: {}", i, said);
        }
    }
}

/// The stories of traces/ that state their counts by hand, by the oracle: three counts, none where the header is refused, then
/// entries and ending number.
#[test]
fn the_stories_hold() {
    let mut folders = vec![std::path::PathBuf::from(concat!(env!("CARGO_MANIFEST_DIR"), "/../traces"))];
    let mut stories = 0;
    while let Some(folder) = folders.pop() {
        for file in std::fs::read_dir(folder).expect("a folder") {
            let path = file.expect("a file").path();
            if path.is_dir() {
                folders.push(path);
            } else if path.extension().map_or(false, |ending| ending == "counts") {
                let trace = std::fs::read(path.with_extension("trace")).expect("its trace");
                let stated = std::fs::read_to_string(&path).expect("text");
                let said = match count(&trace) {
                    Ok(Counted { entries, ending, counts: Counts { claims, removals, meetings } }) => {
                        format!("{} {} {}\n{} {}\n", claims, removals, meetings, entries, ending)
                    }
                    Err(number) => format!("0 {}\n", number),
                };
                assert_eq!(said, stated, "{}", path.display());
                stories += 1;
            }
        }
    }
    assert!(stories > 40, "{} stories", stories);
}
