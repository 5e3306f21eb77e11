//! A station in bytes, where the proved calls are linked: stepped along the stories of traces/ it answers as they say, wherever it
//! is saved and loaded, with a table of who was heard beside it or without; and the live station with profirust's shape does with port and applications what its answers say.

#![allow(unknown_lints, unexpected_cfgs)]
#![cfg(linked)]

mod stored;

use amsulfezd::answer::{Answer, Sent, State};
use amsulfezd::fdl::{
    FdlActiveStation, FdlApplication, Instant, ProfibusPhy, TelegramTx, TelegramTxResponse,
};
use amsulfezd::heard::{table_heard, Heard, Table, HEARD_LENGTH, LAST_ADDRESS, TABLE_LENGTH};
use amsulfezd::record::{Poll, StationType, Telegram};
use amsulfezd::refusal::Refusal;
use amsulfezd::replay::{counts, heard, replay_whole};
use amsulfezd::settings::Settings;
use amsulfezd::station::{
    open_station, station_counts, step_heard, step_station, Station, STATION_LENGTH,
};
use amsulfezd::trace::{entry_of, Edition, Header, ONLINE};
use stored::{files, traces};

/// Every story, stepped one entry at a time; the station is saved and loaded before each. With a table beside it it is the same
/// station, and at the end the table says of every address, and the station of its counts, what the calls on the whole trace say.
#[test]
fn stepped_stations_answer_as_the_stories_say() {
    let (mut stepped, mut heard_at_all) = (0, 0);
    for path in files(&traces(), "trace") {
        let trace = std::fs::read(&path).expect("the trace");
        let (run, answers) = replay_whole(&trace);
        let mut station = match Station::open(&trace) {
            Ok(station) => station,
            Err(refusal) => {
                assert_eq!((run.entries, run.ending), (0, Some(refusal)));
                continue;
            }
        };
        let mut rest = &trace[Edition::of(&trace).header_length()..];
        let (mut beside, mut table) = (station.clone(), Table::default());
        for expected in &answers {
            station = Station::from_bytes(&station.bytes().to_vec()).expect("a station");
            let before = station.clone();
            let (used, answer) = station.step(rest).expect("a whole entry");
            assert_eq!(&answer, expected, "{}", path.display());
            assert!(answer.refusal.is_none() || station == before);
            let known = table.clone();
            let with_table = beside.step_heard(rest, &mut table);
            assert_eq!(with_table, Ok((used, answer)), "{}", path.display());
            assert_eq!(beside, station, "{}", path.display());
            assert!(answer.consumed > 0 || table == known);
            table = Table::from_bytes(table.bytes()).expect("a table");
            rest = &rest[used..];
            stepped += 1;
        }
        assert_eq!(run.ending.is_none(), rest.is_empty());
        assert_eq!(station.step(rest), Err(Refusal::Cut));
        assert_eq!(beside.step_heard(rest, &mut table), Err(Refusal::Cut));
        assert_eq!(
            counts(&trace).map(|(_, counts)| counts),
            Ok(beside.counts())
        );
        for address in 0..=LAST_ADDRESS {
            let (_, expected) = heard(&trace, address).expect("an accepted header");
            assert_eq!(table.of(address), expected, "{}", path.display());
            heard_at_all += u32::from(expected.is_some());
        }
        assert_eq!((table.of(126), table.of(255)), (None, None));
    }
    assert!(stepped > 500, "only {} entries", stepped);
    assert!(heard_at_all > 50, "only {} heard", heard_at_all);
}

/// Every length of the table, and some of the other slices: 36, 17, 18, and what is refused writes nothing.
#[test]
fn refusals_with_a_table_come_in_their_order_and_write_nothing() {
    let mut opened = [0xa5; STATION_LENGTH + 1];
    open_station(&Header::new(5, 6, 1).to_bytes(), &mut opened).expect("a station");
    for length in 0..TABLE_LENGTH + 4 {
        for (station_len, entry, room) in [
            (STATION_LENGTH + 1, &[ONLINE][..], 9),
            (STATION_LENGTH, &[ONLINE, 1][..], 8),
            (STATION_LENGTH, &[ONLINE][..], 7),
            (STATION_LENGTH, &[14][..], 7),
            (STATION_LENGTH - 1, &[][..], 7),
        ] {
            let (mut station, mut answer, mut table) = (opened, [0xa5; 9], vec![0xa5; length]);
            let expected = match (station_len, entry.len(), room) {
                (95, ..) => Err(Refusal::Station),
                _ if entry[0] == 14 => Err(Refusal::Cut),
                (_, _, 7) => Err(Refusal::NoRoom),
                _ if length < TABLE_LENGTH => Err(Refusal::NoRoom),
                _ => Ok(1),
            };
            let stepped = step_heard(
                &mut station[..station_len],
                entry,
                &mut answer[..room],
                &mut table,
            );
            assert_eq!(stepped, expected, "a table of {} bytes", length);
            // a command leaves the table
            assert_eq!(table, vec![0xa5; length]);
            assert_eq!(station == opened, expected.is_err());
            assert_eq!(station[STATION_LENGTH], 0xa5);
            assert_eq!(answer[..8] == [0xa5; 8], expected.is_err());
            assert_eq!(answer[8], 0xa5);
        }
    }
}

/// What a table says of an address: 26, then 18; in a table that is too short for it it was never heard.
#[test]
fn a_table_is_asked_for_an_address() {
    let heard = Heard {
        times: 7,
        first: 3,
        last: 2,
        station_type: Some(StationType::InRing),
    };
    let table = heard.to_bytes().repeat(usize::from(LAST_ADDRESS) + 1);
    for (length, address, room) in [
        (TABLE_LENGTH, 0, 17),
        (TABLE_LENGTH, 125, 20),
        (TABLE_LENGTH - 1, 125, 17),
        (17, 0, 17),
        (16, 0, 18),
        (0, 0, 17),
        (TABLE_LENGTH, 125, 16),
        (TABLE_LENGTH, 126, 16),
        (0, 255, 0),
    ] {
        let mut entry = vec![0xa5; room];
        let expected = match (address, room) {
            (126..=255, _) => Err(Refusal::AskedAddress),
            (_, 0..=16) => Err(Refusal::NoRoom),
            _ => Ok(()),
        };
        assert_eq!(table_heard(&table[..length], address, &mut entry), expected);
        let mut left = vec![0xa5; room];
        if expected.is_ok() {
            let whole = length >= HEARD_LENGTH * (usize::from(address) + 1);
            let said = if whole {
                heard.to_bytes()
            } else {
                [0; HEARD_LENGTH]
            };
            left[..HEARD_LENGTH].copy_from_slice(&said);
        }
        assert_eq!(entry, left, "{} bytes, address {}", length, address);
    }
    let whole = Table::from_bytes(&table).expect("a table");
    assert_eq!(whole.of(125), Some(heard));
    assert_eq!(Table::from_bytes(&table[1..]), None);
    let mut bad = table;
    bad[16] = 5;
    assert_eq!(Table::from_bytes(&bad), None);
}

/// Counts stop at their largest and first stays; tokens leave the type, a response sets it.
#[test]
fn entries_at_their_ends_go_on() {
    let header = Header::new(5, 6, 1).to_bytes();
    let mut station = Station::open(&header).expect("a station");
    let before = |times, station_type| Heard {
        times,
        first: 9_000,
        last: 9_999,
        station_type,
    };
    let mut bytes = [0; TABLE_LENGTH];
    let mut put = |address: usize, heard: Heard| {
        bytes[HEARD_LENGTH * address..][..HEARD_LENGTH].copy_from_slice(&heard.to_bytes());
    };
    put(9, before(u32::MAX - 1, Some(StationType::Slave)));
    put(12, before(u32::MAX, None));
    let mut table = Table::from_bytes(&bytes).expect("a table");
    station
        .step_heard(&[ONLINE], &mut table)
        .expect("a command");
    let token = Telegram::token(9, 12);
    let response = Telegram::response(12, 9, StationType::InRing);
    let poll = Poll::at(8_000)
        .telegram(token)
        .telegram(token)
        .telegram(response);
    let entry = entry_of(&poll, 1).expect("it fits");
    let (_, answer) = station.step_heard(&entry, &mut table).expect("a poll");
    assert_eq!(answer.consumed, 3);
    let after = |station_type| Heard {
        last: 8_000,
        ..before(u32::MAX, Some(station_type))
    };
    assert_eq!(table.of(9), Some(after(StationType::Slave)));
    assert_eq!(table.of(12), Some(after(StationType::InRing)));
    assert_eq!(table.of(5), None);
}

/// The counts of a station: 36, then 18, and nothing behind them changes.
#[test]
fn counts_are_asked_with_every_room() {
    let mut station = [0xa5; STATION_LENGTH + 1];
    open_station(&Header::new(5, 6, 1).to_bytes(), &mut station).expect("a station");
    let mut broken = station;
    broken[0] = 2;
    for room in 0..16 {
        let ask = |station: &[u8]| {
            let mut counts = vec![0xa5; room];
            (station_counts(station, &mut counts), counts)
        };
        let kept = vec![0xa5; room];
        let short = &station[..STATION_LENGTH - 1];
        assert_eq!(ask(short), (Err(Refusal::Station), kept.clone()));
        assert_eq!(ask(&broken), (Err(Refusal::Station), kept.clone()));
        let mut left = kept;
        let said = match left.get_mut(..12) {
            Some(counts) => {
                counts.fill(0);
                Ok(())
            }
            None => Err(Refusal::NoRoom),
        };
        assert_eq!(ask(&station), (said, left.clone()));
        assert_eq!(ask(&station[..STATION_LENGTH]), (said, left));
    }
}

#[test]
fn refusals_come_in_their_order_and_write_nothing() {
    let header = Header::new(5, 6, 1).to_bytes();
    let mut station = [0xa5; STATION_LENGTH + 1];
    assert_eq!(open_station(&header[..15], &mut station), Err(Refusal::Cut));
    assert_eq!(open_station(&[200; 16], &mut []), Err(Refusal::Address));
    let short = &mut station[..STATION_LENGTH - 1];
    assert_eq!(open_station(&header, short), Err(Refusal::NoRoom));
    assert_eq!(station, [0xa5; STATION_LENGTH + 1]);
    assert_eq!(open_station(&header, &mut station), Ok(STATION_LENGTH));
    assert_eq!(station[STATION_LENGTH], 0xa5);

    let opened = station;
    let mut answer = [0xa5; 9];
    let short = &mut station[..STATION_LENGTH - 1];
    assert_eq!(step_station(short, &[], &mut []), Err(Refusal::Station));
    assert_eq!(
        step_station(&mut station, &[14], &mut []),
        Err(Refusal::Cut)
    );
    assert_eq!(
        step_station(&mut station, &[0], &mut answer[..7]),
        Err(Refusal::NoRoom)
    );
    assert_eq!((station, answer), (opened, [0xa5; 9]));
    assert_eq!(step_station(&mut station, &[0, 1], &mut answer), Ok(1));
    assert_eq!(answer, [0, 0, 0, 0, 0, 0, 1, 0xfc, 0xa5]);
    assert_eq!(station[STATION_LENGTH], 0xa5);
    assert_eq!(
        Station::from_bytes(&[0xff; STATION_LENGTH]),
        Err(Refusal::Station)
    );
}

/// A port whose bytes are laid in by hand.
#[derive(Default)]
struct Port {
    transmitting: bool,
    received: Vec<u8>,
    sent: Vec<u8>,
}

impl ProfibusPhy for Port {
    fn poll_transmission(&mut self, _now: Instant) -> bool {
        self.transmitting
    }

    fn transmit_data<F, R>(&mut self, _now: Instant, f: F) -> R
    where
        F: FnOnce(&mut [u8]) -> (usize, R),
    {
        let mut buffer = [0; 255];
        let (length, said) = f(&mut buffer);
        self.sent = buffer[..length].to_vec();
        said
    }

    fn receive_data<F, R>(&mut self, _now: Instant, f: F) -> R
    where
        F: FnOnce(&[u8]) -> (usize, R),
    {
        assert!(!self.transmitting, "asked during a transmission");
        let (taken, said) = f(&self.received);
        self.received.drain(..taken);
        said
    }
}

/// An application that would send a frame and notes what it is told.
#[derive(Default)]
struct Noted {
    frame: Vec<u8>,
    told: Vec<String>,
}

impl FdlApplication for Noted {
    fn transmit_telegram(
        &self,
        _now: Instant,
        _fdl: &FdlActiveStation,
        tx: TelegramTx<'_>,
        high_prio_only: bool,
    ) -> Option<TelegramTxResponse> {
        if self.frame.is_empty() || high_prio_only {
            return None;
        }
        Some(tx.send(&self.frame, Some(20)))
    }

    fn transmitted(&mut self, now: Instant, _fdl: &FdlActiveStation, high_prio: bool) {
        self.told
            .push(format!("{} sent {}", now.total_micros(), high_prio));
    }

    fn receive_reply(&mut self, now: Instant, _fdl: &FdlActiveStation, addr: u8, telegram: &[u8]) {
        let text = format!("{} reply of {}: {:?}", now.total_micros(), addr, telegram);
        self.told.push(text);
    }

    fn handle_timeout(&mut self, now: Instant, _fdl: &FdlActiveStation, addr: u8) {
        self.told
            .push(format!("{} timeout of {}", now.total_micros(), addr));
    }
}

/// A lone station: it claims the token as in example 12, asks 20 and is answered, asks again and is not.
#[test]
fn a_live_station_does_what_its_answers_say() {
    let parameters = Settings::new(5, 6, 1)
        .and_then(|s| s.finish())
        .expect("settings");
    let mut station = FdlActiveStation::new(&parameters).expect("a station");
    let (mut port, mut application) = (Port::default(), Noted::default());
    let poll = |station: &mut FdlActiveStation, port: &mut Port, app: &mut Noted, now: u64| {
        port.sent.clear();
        let answer = station.poll(Instant::from_micros(now), port, app);
        answer.expect("a poll that fits")
    };
    let answer = poll(&mut station, &mut port, &mut application, 900);
    assert_eq!(answer.state, State::Offline);
    station.set_online();
    let answer = poll(&mut station, &mut port, &mut application, 1_000);
    assert_eq!(
        (answer.state, &port.sent[..]),
        (State::ListenToken, &[][..])
    );
    poll(&mut station, &mut port, &mut application, 7_400);
    assert_eq!(port.sent, [0xdc, 5, 5]);
    // the port still sends: it is asked nothing else
    port.transmitting = true;
    let answer = poll(&mut station, &mut port, &mut application, 7_440);
    assert_eq!((answer.state, &port.sent[..]), (State::ClaimToken, &[][..]));
    port.transmitting = false;
    poll(&mut station, &mut port, &mut application, 7_532);
    assert_eq!(port.sent, [0xdc, 5, 5]);
    application.frame = vec![0x10, 20, 5, 0x6d, 0x86, 0x16];
    let answer = poll(&mut station, &mut port, &mut application, 7_664);
    assert_eq!(port.sent, application.frame);
    let sent = Sent::Application {
        application: 0,
        high: false,
        reply_from: 20,
        length: 6,
    };
    assert_eq!(answer.sent, sent);
    assert_eq!(application.told, ["7664 sent false"]);

    // half of the reply, then all of it and a byte of what comes next, which stays
    let reply = [0x68, 5, 5, 0x68, 5, 20, 8, 0x12, 0x34, 0x67, 0x16];
    port.received = reply[..5].to_vec();
    let answer = poll(&mut station, &mut port, &mut application, 7_900);
    assert_eq!(
        (answer.state, answer.consumed),
        (State::AwaitDataResponse, 0)
    );
    port.received = [&reply[..], &[0xdc]].concat();
    let answer = poll(&mut station, &mut port, &mut application, 8_038);
    assert_eq!((answer.state, answer.consumed), (State::UseToken, 1));
    assert_eq!(port.received, [0xdc]);
    assert_eq!(
        application.told[1],
        format!("8038 reply of 20: {:?}", reply)
    );
    assert_eq!(station.heard().of(20).map(|heard| heard.times), Some(1));

    // bytes that are no frame are dropped
    port.received = vec![0, 1, 2];
    poll(&mut station, &mut port, &mut application, 8_050);
    assert_eq!(port.received, []);

    // asked again, and restarted while it waits: nobody answers
    poll(&mut station, &mut port, &mut application, 8_116);
    assert_eq!(application.told[2], "8116 sent false");
    let saved = *station.station().bytes();
    let heard = station.heard().clone();
    let mut station = FdlActiveStation::restored(&parameters, &saved, heard).expect("a station");
    application.frame.clear();
    poll(&mut station, &mut port, &mut application, 8_647);
    assert_eq!(application.told.len(), 3);
    poll(&mut station, &mut port, &mut application, 8_648);
    assert_eq!(application.told[3], "8648 timeout of 20");
    assert_eq!((station.counts().claims, station.counts().removals), (1, 0));
    station.set_offline();
    let answer = poll(&mut station, &mut port, &mut application, 8_700);
    assert_eq!(answer.state, State::Offline);
    assert_eq!(station.counts().claims, 1);
    assert_eq!(
        FdlActiveStation::restored(&parameters, &saved[1..], Table::default()).err(),
        Some(Refusal::Station)
    );
}

/// Another number of applications than the settings say is refused, and a clock of 49 bits does not fit.
#[test]
fn a_poll_that_the_station_does_not_take_changes_nothing() {
    let header = Header::new(5, 6, 1).to_bytes();
    let mut station = FdlActiveStation::new(&header).expect("a station");
    station.set_online();
    let before = *station.station().bytes();
    let (mut one, mut two, mut port) = (Noted::default(), Noted::default(), Port::default());
    let answer: Answer = station
        .poll_multi(
            Instant::from_micros(1_000),
            &mut port,
            &mut [&mut one, &mut two],
        )
        .expect("an answer");
    assert_eq!(answer.refusal, Some(Refusal::RecordLength));
    let late = Instant::from_micros(1 << 48);
    assert!(station.poll(late, &mut port, &mut one).is_err());
    assert_eq!(station.station().bytes(), &before);
    station.set_passive();
    let answer = station.poll(Instant::from_micros(1_000), &mut port, &mut one);
    assert_eq!(answer.map(|answer| answer.state), Ok(State::PassiveIdle));
}
