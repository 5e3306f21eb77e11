//! The proved calls, where they are linked: they answer as the stories of traces/ say.

#![allow(unknown_lints, unexpected_cfgs)]
#![cfg(linked)]

mod stored;

use amsulfezd::answer::{answers, Answer};
use amsulfezd::counts::{self, Counts, COUNTS_LENGTH};
use amsulfezd::record::{Poll, Telegram};
use amsulfezd::refusal::Refusal;
use amsulfezd::replay::{counts, other_edition, replay, replay_whole, trace_counts};
use amsulfezd::run::{from_text, to_text};
use amsulfezd::trace::{in_other_edition, Edition, Header, TraceBuilder};
use stored::{files, traces};

#[test]
fn the_proved_call_answers_as_the_stories_say() {
    let mut count = 0;
    for path in files(&traces(), "trace") {
        let trace = std::fs::read(&path).expect("the trace");
        let expected =
            std::fs::read_to_string(path.with_extension("answers")).expect("its answers");
        let (run, answers) = replay_whole(&trace);
        assert_eq!(to_text(&answers, &run), expected, "{}", path.display());
        count += 1;
    }
    assert!(count > 20, "only {} traces", count);
}

/// Every buffer from none to one with room to spare: answers as far as there is room, then 18, and no byte more.
#[test]
fn a_short_buffer_ends_with_18() {
    let trace = std::fs::read(traces().join("example12.trace")).expect("the trace");
    let text = std::fs::read_to_string(traces().join("example12.answers")).expect("the answers");
    let (expected, _) = from_text(&text).expect("a run");
    for length in 0..=64 {
        let mut buffer = vec![0xa5; length];
        let run = replay(&trace, &mut buffer);
        let answered = expected.len().min(length / 8);
        let ending = if answered < expected.len() {
            Some(Refusal::NoRoom)
        } else {
            None
        };
        assert_eq!((run.entries, run.ending), (answered as u64, ending));
        let (written, rest) = buffer.split_at(8 * answered);
        let read: Vec<Answer> = answers(written).map(|a| a.expect("an answer")).collect();
        assert_eq!(read, expected[..answered]);
        assert!(rest.iter().all(|&byte| byte == 0xa5), "length {}", length);
    }
}

#[test]
fn a_refused_header_writes_nothing() {
    let mut buffer = [0xa5; 64];
    let mut trace = std::fs::read(traces().join("example12.trace")).expect("the trace");
    trace[0] = 126;
    let run = replay(&trace, &mut buffer);
    assert_eq!((run.entries, run.ending), (0, Some(Refusal::Address)));
    assert_eq!(buffer, [0xa5; 64]);
}

#[test]
fn several_threads_may_call() {
    let trace = std::fs::read(traces().join("night.trace")).expect("the trace");
    let once = replay_whole(&trace);
    let threads: Vec<_> = (0..4)
        .map(|_| {
            let trace = trace.clone();
            std::thread::spawn(move || (0..100).map(|_| replay_whole(&trace)).collect::<Vec<_>>())
        })
        .collect();
    for thread in threads {
        for again in thread.join().expect("the thread ends") {
            assert_eq!(again, once);
        }
    }
}

/// Each stored trace's header moves to the other edition and back, or is refused as its story says, with every room from none
/// to some to spare; no other byte changes. The moved trace has the same answers.
#[test]
fn headers_move_and_their_traces_are_answered_alike() {
    let mut moved = [0, 0];
    for path in files(&traces(), "trace") {
        let trace = std::fs::read(&path).expect("the trace");
        let (run, answers) = replay_whole(&trace);
        // a run that reads entries or the end has an accepted header
        let cut = trace.len() < Edition::of(&trace).header_length();
        let refused = match run.ending {
            Some(Refusal::Cut) if !cut => None,
            ending => ending,
        };
        let other = if refused.is_none() {
            let other = in_other_edition(&trace).expect("an accepted header fits");
            assert_eq!(replay_whole(&other), (run, answers), "{}", path.display());
            moved[usize::from(Edition::of(&trace) == Edition::Second)] += 1;
            other
        } else {
            Vec::new()
        };
        let length = Edition::of(&trace).other().header_length();
        for room in 0..20 {
            let mut out = vec![0xa5; room];
            let mut expected = out.clone();
            let returned = match refused {
                Some(refusal) => Err(refusal),
                None if room < length => Err(Refusal::NoRoom),
                None => {
                    expected[..length].copy_from_slice(&other[..length]);
                    Ok(length)
                }
            };
            assert_eq!(
                other_edition(&trace, &mut out),
                returned,
                "{}",
                path.display()
            );
            assert_eq!(out, expected, "{}, room {}", path.display(), room);
        }
    }
    assert!(moved[0] > 10 && moved[1] > 3, "{:?}", moved);
}

/// Each story that states its counts: the proved call gives them, with every room from none to some to spare, and in both
/// editions.
#[test]
fn the_proved_call_counts_as_the_stories_say() {
    let mut count = 0;
    for path in files(&traces(), "counts") {
        let trace = std::fs::read(path.with_extension("trace")).expect("the trace");
        let text = std::fs::read_to_string(&path).expect("its counts");
        let (stated, run) = counts::from_text(&text).expect("counts");
        let expected = match stated {
            Some(stated) => Ok((run, stated)),
            None => Err(run.ending.expect("a refused header has a number")),
        };
        assert_eq!(counts(&trace), expected, "{}", path.display());
        if let Some(stated) = stated {
            let other = in_other_edition(&trace).expect("an accepted header fits");
            assert_eq!(counts(&other), Ok((run, stated)), "{}", path.display());
            for room in 0..COUNTS_LENGTH + 4 {
                let mut bytes = vec![0xa5; room];
                let mut left = bytes.clone();
                let returned = match left.get_mut(..COUNTS_LENGTH) {
                    Some(place) => {
                        place.copy_from_slice(&stated.to_bytes());
                        Ok(run)
                    }
                    None => Err(Refusal::NoRoom),
                };
                assert_eq!(trace_counts(&trace, &mut bytes), returned);
                assert_eq!(bytes, left, "{}, room {}", path.display(), room);
            }
        }
        count += 1;
    }
    assert!(count > 20, "only {} traces", count);
}

/// Counts of more than one byte: 300 times a claim, and four meetings, all of them in rows of one, in each of 300 polls. Every
/// claim is of a fresh station, and offline clears none of them.
#[test]
fn counts_of_more_than_one_byte() {
    let mut trace = TraceBuilder::new(Header::new(5, 6, 1));
    for _ in 0..300 {
        trace.online();
        trace.poll(&Poll::at(1000)).expect("it fits");
        trace.poll(&Poll::at(7400)).expect("it fits");
        trace.offline();
    }
    let claimed = Counts {
        claims: 300,
        ..Counts::default()
    };
    let (run, life) = counts(&trace.clone().into_bytes()).expect("an accepted header");
    assert_eq!((run.entries, life), (1200, claimed));
    // 9 lets us into its ring, and then a token by our address and one by 9 are heard in turn
    trace.online();
    let nine = Telegram::token(9, 9);
    trace
        .poll(&Poll::at(1000).telegram(nine).telegram(nine))
        .expect("it fits");
    trace
        .poll(&Poll::at(1300).telegram(Telegram::status_request(9, 5)))
        .expect("it fits");
    trace.poll(&Poll::at(1400)).expect("it fits");
    for clock in 0..300 {
        let mut poll = Poll::at(2000 + clock);
        for _ in 0..4 {
            poll = poll.telegram(Telegram::token(5, 9)).telegram(nine);
        }
        trace.poll(&poll).expect("it fits");
    }
    let (_, life) = counts(&trace.into_bytes()).expect("an accepted header");
    assert_eq!(
        life,
        Counts {
            meetings: 1200,
            ..claimed
        }
    );
}

/// Bytes and text of counts, and texts that are none.
#[test]
fn counts_read_back() {
    let all = Counts {
        claims: 0x0102_0304,
        removals: u32::MAX,
        meetings: 7,
    };
    assert_eq!(Counts::from_bytes(&all.to_bytes()), all);
    let text = "16909060 4294967295 7\n12 17\n";
    let (read, run) = counts::from_text(text).expect("counts");
    assert_eq!(read, Some(all));
    assert_eq!(counts::to_text(read, &run), text);
    for bad in [
        "",
        "1 2\n2 0\n",
        "1 2 3 4\n2 0\n",
        "1 2 4294967296\n2 0\n",
        "1 2 -3\n2 0\n",
        "1 2 3\n1 2 3\n2 0\n",
        "1 2 3\n",
        "0 26\n",
    ] {
        assert!(counts::from_text(bad).is_err(), "{}", bad);
    }
}
