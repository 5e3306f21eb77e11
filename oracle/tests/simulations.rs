//! A simulated bus: runs and refusals stated by hand; that a station's part of a report is what its own trace is answered; wrong
//! calls, each of which must be found; and the programs.

mod programs;

use oracle::comparison::calls::{oracle, Left};
use oracle::comparison::hex;
use oracle::records::Telegram;
use oracle::simulations::compare::{compare_answers, compare_simulations, made, Simulate, Trace};
use oracle::simulations::simulation::{simulate, simulated_trace, Setup};
use oracle::simulations::tries::{bytes_of, setup_at_random, Try};
use oracle::trace::{replay_trace, Header};

/// Stations with the settings of document 01's example 12: 500 kbaud, so that a bit takes 2 µs, a token 66 and the slot 400.
/// Station 2 claims after 4,000 µs of silence, station 5 after 6,400.
fn two(tick: u64, ticks: u64) -> Vec<u8> {
    let station = |address| Header { address, ..Header::EXAMPLE_12 };
    bytes_of(tick, ticks, &[station(5), station(2)])
}

/// The report of an accepted setup, 16 hex digits an answer.
fn report(setup: &[u8]) -> Vec<String> {
    let mut report = vec![0xa5; 100_000];
    let returned = simulate(setup, &mut report);
    let accepted = Setup::read(setup).expect("an accepted setup");
    assert_eq!(returned, 256 * accepted.ticks);
    let length = 8 * accepted.stations.len() * accepted.ticks as usize;
    assert!(report[length..].iter().all(|byte| *byte == 0xa5));
    report[..length].chunks(8).map(hex).collect()
}

/// The entries of a station's trace after its header, in hex digits.
fn entries(setup: &[u8], place: u8) -> Vec<String> {
    let mut trace = vec![0xa5; 100_000];
    let returned = simulated_trace(setup, place, &mut trace);
    assert_eq!(returned % 256, 0);
    let (written, kept) = trace.split_at((returned / 256) as usize);
    assert!(kept.iter().all(|byte| *byte == 0xa5));
    let address = Setup::read(setup).expect("an accepted setup").stations[usize::from(place)].address;
    assert_eq!(written[..16], Header { address, ..Header::EXAMPLE_12 }.write());
    let (mut rest, mut entries) = (&written[16..], Vec::new());
    while let Some(first) = rest.first() {
        let (entry, after) = rest.split_at(1 + usize::from(if *first < 3 { 0 } else { *first }));
        entries.push(hex(entry));
        rest = after;
    }
    entries
}

/// Ticks of 2,000 µs. Station 2 claims at the third, 5 hears each of its tokens a tick later.
#[test]
fn one_claims_and_the_other_hears_it() {
    let stated = [
        // 0 µs and 2,000 µs: both listen
        "03100000000001fc",
        "03100000000001fc",
        "03100000000001fc",
        "03100000000001fc",
        // 4,000 µs: 2 claims and sends a token of 3 bytes to itself
        "02420800300001fc",
        "03100000000001fc",
        // 6,000 µs: 2 sends the second token and holds; 5 takes the first one, and 2 is its next station
        "02320800300001fc",
        "0310000001000008",
        // 8,000 µs: the application of 2 declines, it is to pass the token; 5 takes the second one
        "04600000000001fc",
        "0310000001000008",
        // 10,000 µs: 2 is alone and passes the token to itself; nothing comes to 5
        "02320800300001fc",
        "0310000000000008",
    ];
    assert_eq!(report(&two(2000, 6)), stated);
    let stated = [
        "00",
        "0e0000000000000000000000000000",
        "0e0000000007d00000000000000000",
        "0e000000000fa00000000000000000",
        "120000000017700800000000000000 01020000",
        "12000000001f400800000000000000 01020000",
        "0e0000000027100000000000000000",
    ]
    .map(|entry| entry.replace(' ', ""));
    assert_eq!(entries(&two(2000, 6), 1), stated);
    // no station is given its own
    assert!(entries(&two(2000, 6), 0)[1..].iter().all(|entry| entry.len() == 30));
}

/// Ticks of 8,000 µs: both claim at the second, and all their telegrams are of one tick. None arrives.
#[test]
fn what_is_sent_at_one_tick_is_lost() {
    let stated = [
        "03100000000001fc",
        "03100000000001fc",
        "02420800300001fc",
        "02421400300001fc",
        "02320800300001fc",
        "02321400300001fc",
        "04600000000001fc",
        "04600000000001fc",
        "02320800300001fc",
        "02321400300001fc",
    ];
    assert_eq!(report(&two(8000, 5)), stated);
    for place in 0..2 {
        assert!(entries(&two(8000, 5), place)[1..].iter().all(|entry| entry.len() == 30));
    }
}

/// Ticks of 4,000 µs. At 8,000 the first token of 2 is due at 5, which claims in that poll and takes nothing; so it stands in the
/// next record too, and the tokens of that tick, which met, never come.
#[test]
fn what_was_not_consumed_stands_first_in_the_next_record() {
    let stated = [
        "00",
        "0e0000000000000000000000000000",
        "0e000000000fa00000000000000000",
        "12000000001f40080000000000000001020000",
        "12000000002ee0080000000000000001020000",
        "12000000003e80080000000000000001020000",
    ];
    assert_eq!(entries(&two(4000, 5), 1), stated);
    let stated = [
        "03100000000001fc",
        "03100000000001fc",
        "02420800300001fc",
        "03100000000001fc",
        "02320800300001fc",
        "02421400300001fc",
        "04600000000001fc",
        "02321400300001fc",
        "02320800300001fc",
        "04600000000001fc",
    ];
    assert_eq!(report(&two(4000, 5)), stated);
}

/// A token takes 66 µs. With ticks of 22 µs station 2 claims at 4,004; it ends at 4,070, a tick. With ticks of 10 µs it claims at
/// 4,000; the end, 4,066, lies between two.
#[test]
fn the_sender_is_transmitting_at_ticks_before_the_end() {
    for (tick, claims, transmitting, due) in [(22, 4004, 4026..=4048, 4070), (10, 4000, 4010..=4060, 4070)] {
        let setup = Setup::read(&two(tick, 420)).expect("an accepted setup");
        let (mut own, mut other) = (Vec::new(), Vec::new());
        let sent = setup.run(&mut |_, place, record, _| {
            if place == 0 && record.transmitting && record.clock < 4100 {
                own.push(record.clock);
            }
            if place == 1 && !record.telegrams.is_empty() {
                other.push(record.clock);
            }
        });
        assert_eq!((sent[0].start, sent[0].end, sent[0].place), (claims, claims + 66, 0));
        assert_eq!(own, transmitting.step_by(tick as usize).collect::<Vec<u64>>());
        assert_eq!(other.first(), Some(&due));
    }
}

/// At each speed a token has 33 bits, rounded up to whole microseconds: the tick at which it is heard.
#[test]
fn a_transmissions_end_at_each_speed() {
    let ends = [3438, 1719, 1056, 727, 352, 176, 66, 22, 11, 6, 3];
    for (baud, end) in (0..).zip(ends) {
        let station = |address| Header { address, baud, slot: 1000, ..Header::EXAMPLE_12 };
        let setup = Setup { tick: 1_000_000, ticks: 3, stations: vec![station(2), station(5)] };
        // at 9,600 baud station 2 claims after 1,041,667 µs, at 19,200 after 520,834
        let sent = setup.run(&mut |_, _, _, _| ());
        assert_eq!(sent[0].end - sent[0].start, end, "code {}", baud);
    }
}

/// The number of a setup, by both calls with all the room that they need.
fn refused(setup: &[u8]) -> u64 {
    let number = simulate(setup, &mut vec![0; 1000]);
    assert_eq!(simulated_trace(setup, 0, &mut vec![0; 1000]), number);
    number
}

/// "order 29, 28, 35, 30, 27, then each station's settings, then 18": all faults at once, and one after the other made good.
#[test]
fn the_order_of_the_refusals() {
    let good = two(400, 10);
    let mut setup = good.clone();
    setup[1..9].fill(0xff);
    // addresses 200 and 200, codes 6 and 7, no gap wait, one factor
    (setup[9], setup[23], setup[24]) = (200, 200, 7);
    (setup[17], setup[21], setup[0]) = (0, 1, 9);
    assert_eq!(refused(&setup[..8]), 17);
    assert_eq!(refused(&setup), 29);
    setup[0] = 2;
    assert_eq!(refused(&setup[..36]), 17);
    assert_eq!(refused(&[&setup[..], &[0]].concat()), 17);
    assert_eq!(refused(&setup), 28);
    setup[1..5].copy_from_slice(&good[1..5]);
    assert_eq!(refused(&setup), 35);
    setup[5..9].copy_from_slice(&good[5..9]);
    assert_eq!(refused(&setup), 30);
    setup[24] = 6;
    assert_eq!(refused(&setup), 27);
    // the second address is 2 again; what is first given decides, within it 1 before 5 before 8
    setup[23] = 2;
    setup[31] = 101;
    assert_eq!(refused(&setup), 1);
    setup[9] = 5;
    assert_eq!(refused(&setup), 5);
    setup[17] = 10;
    assert_eq!(refused(&setup), 8);
    setup[21] = 0;
    assert_eq!(refused(&setup), 5);
    setup[31] = 10;
    assert_eq!(setup, good);
    assert_eq!(simulated_trace(&setup, 2, &mut []), 29);
    assert_eq!(simulated_trace(&setup, 255, &mut []), 29);
    assert_eq!(simulated_trace(&setup, 1, &mut []), 18);
    assert_eq!(simulate(&setup, &mut [0; 159]), 18);
    assert_eq!(simulate(&setup, &mut [0; 160]), 10 * 256);
    // no telegram in ten ticks: 17 bytes and 15 for each record
    assert_eq!(simulated_trace(&setup, 1, &mut [0; 166]), 18);
    assert_eq!(simulated_trace(&setup, 1, &mut [0; 167]), 167 * 256);
}

/// The borders of tick and ticks, and no ticks at all.
#[test]
fn the_borders() {
    for (tick, ticks, number) in [
        (0, 1, 28),
        (1, 1, 0),
        (1_000_000, 1, 0),
        (1_000_001, 1, 28),
        (1, 1_000_000, 18),
        (1, 1_000_001, 35),
        (0, 1_000_001, 28),
    ] {
        assert_eq!(simulate(&two(tick, ticks), &mut [0; 16]) % 256, number, "{} {}", tick, ticks);
    }
    assert_eq!(simulate(&two(1, 0), &mut []), 0);
    assert_eq!(simulated_trace(&two(1, 0), 0, &mut [0; 16]), 18);
    assert_eq!(simulated_trace(&two(1, 0), 0, &mut [0; 17]), 17 * 256);
}

#[test]
fn a_stations_part_is_what_its_trace_is_answered() {
    let (said, held) = compare_answers(simulate, simulated_trace, replay_trace, 5, 100);
    assert!(held, "{}", said);
    let silent: Simulate = |setup, report| {
        let returned = simulate(setup, report);
        report.iter_mut().skip(16).step_by(8).for_each(|byte| *byte = 3);
        returned
    };
    assert!(!compare_answers(silent, simulated_trace, replay_trace, 5, 100).1);
}

/// The text of a comparison with these calls, which must not hold.
fn found(simulate: Simulate, trace: Trace) {
    let (said, held) = compare_simulations(&|tries: &[Try]| made(simulate, trace, tries), 5, 50);
    assert!(!held, "{}", said);
    for part in ["seed 5, ", "the calls differ", "the oracle:  ", "the other:   "] {
        assert!(said.contains(part), "{}", said);
    }
}

#[test]
fn wrong_calls_are_found() {
    let refuses: Simulate = |_, _| 29;
    let ticks_unsaid: Simulate = |setup, report| simulate(setup, report) % 256;
    let early: Simulate = |setup, report| match simulate(setup, report) {
        18 => {
            report.fill(0);
            18
        }
        returned => returned,
    };
    let one_more: Simulate = |setup, report| {
        let returned = simulate(setup, report);
        if let (0, Ok(accepted)) = (returned % 256, Setup::read(setup)) {
            if let Some(byte) = report.get_mut(8 * accepted.stations.len() * accepted.ticks as usize) {
                *byte = 0;
            }
        }
        returned
    };
    for wrong in [refuses, ticks_unsaid, early, one_more] {
        found(wrong, simulated_trace);
    }
    let as_given: Trace = |setup, station, trace| simulated_trace(setup, station ^ u8::from(setup.len() == 37), trace);
    let place_unasked: Trace = |setup, station, trace| match simulated_trace(setup, station, trace) {
        29 if Setup::read(setup).is_ok() => 0,
        returned => returned,
    };
    let as_it_goes: Trace = |setup, station, trace| match simulated_trace(setup, station, trace) {
        18 => {
            trace.fill(0);
            18
        }
        returned => returned,
    };
    for wrong in [as_given, place_unasked, as_it_goes] {
        found(simulate, wrong);
    }
}

/// A call that does not come back is a difference.
#[test]
fn a_call_that_ends_is_found() {
    let ends = |tries: &[Try]| -> Vec<Left> {
        oracle(tries).into_iter().map(|left| left.filter(|made| made.returned != 27)).collect()
    };
    let (said, held) = compare_simulations(&ends, 5, 50);
    assert!(!held && said.contains("did not come back"), "{}", said);
}

/// Each setup made at random is accepted.
#[test]
fn setups_at_random_are_accepted() {
    for index in 0..2000 {
        let setup = setup_at_random(5, index);
        assert!(Setup::read(&setup).is_ok(), "{}: {}", index, hex(&setup));
    }
}

/// The stories of traces/simulations, stated by hand, by the oracle: a setup's bytes, and each telegram with its fate.
#[test]
fn the_stories_hold() {
    let folder = concat!(env!("CARGO_MANIFEST_DIR"), "/../traces/simulations");
    let mut count = 0;
    for file in std::fs::read_dir(folder).expect("the folder") {
        let path = file.expect("a file").path();
        if path.extension().and_then(|ending| ending.to_str()) != Some("bus") {
            continue;
        }
        let stated = std::fs::read_to_string(&path).expect("a file");
        let (digits, stated) = stated.split_once('\n').expect("the setup's bytes");
        let pair = |at| u8::from_str_radix(&digits[at..at + 2], 16).expect("digits");
        let bytes: Vec<u8> = (0..digits.len()).step_by(2).map(pair).collect();
        let setup = Setup::read(&bytes).expect("an accepted setup");
        let sent = setup.run(&mut |_, _, _, _| ());
        let mut left = String::new();
        for one in &sent {
            let (what, to) = match one.telegram {
                Telegram::Token { destination, .. } => ("token", destination),
                Telegram::Request { destination, .. } => ("status-request", destination),
                Telegram::Response { destination, .. } => ("status-response", destination),
                Telegram::ShortConfirmation => panic!("nobody sends it"),
            };
            let clocks = (0..setup.ticks).map(|k| k * setup.tick);
            let fate = match clocks.filter(|now| one.due(*now, setup.tick) && !one.lost(&sent)).collect::<Vec<u64>>()[..]
            {
                [] => "lost".to_string(),
                [clock] => clock.to_string(),
                _ => panic!("it is due twice"),
            };
            let from = setup.stations[one.place].address;
            left.push_str(&format!("{} {} {} {} {}\n", one.start, from, what, to, fate));
        }
        assert_eq!(left, stated, "{}", path.display());
        count += 1;
    }
    assert_eq!(count, 3);
}

const COMPARE_SIMULATIONS: &str = env!("CARGO_BIN_EXE_compare_simulations");

#[test]
fn calls_in_another_process_are_the_same() {
    programs::calls_in_another_process_are_the_same(COMPARE_SIMULATIONS, "50");
}

#[test]
fn bad_usage_is_one_line_and_status_2() {
    programs::bad_usage(COMPARE_SIMULATIONS, &programs::BAD_USAGE);
}
