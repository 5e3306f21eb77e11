//! Document 02, P12, "Several loggers on one simulated bus": the setup, a run over published stations, and the two calls that
//! show it. All that was sent is one list, and what is on the bus at a tick is read off that list.

use crate::baud::Baudrate;
use crate::records::{entry_of, Answer, PollRecord, Sent, Telegram};
use crate::trace::{Entry, Header, Runner, ANSWER};

/// The bytes before the stations: "number of stations 8 bits, tick 32, ticks 32".
pub const HEAD: usize = 9;
/// "then for each station 14 bytes"
pub const STATION: usize = 14;
/// "a simulation of 2 to 8 stations"
pub const STATIONS: std::ops::RangeInclusive<usize> = 2..=8;
/// "The tick is 1 to 1,000,000 µs."
pub const TICK: std::ops::RangeInclusive<u64> = 1..=1_000_000;
/// "35 more than 1,000,000 ticks"
pub const MOST_TICKS: u64 = 1_000_000;
/// "beyond 8 the oldest fall away"
pub const MOST: usize = 8;
/// "Each has one application that declines"
const APPLICATIONS: u8 = 1;
/// "A token has 3 bytes, an FDL status request or response 6.": no telegram of a run is longer.
const LONGEST: u32 = 6;

/// A setup that is accepted.
#[derive(Debug, Clone, PartialEq, Eq)]
pub struct Setup {
    pub tick: u64,
    pub ticks: u64,
    /// By rising address.
    pub stations: Vec<Header>,
}

/// A number of so many bytes, most significant first.
fn number(bytes: &[u8]) -> u64 {
    bytes.iter().fold(0, |number, byte| 256 * number + u64::from(*byte))
}

/// "address 8, baud 8, slot 16, rotation 32, gap 8, HSA 8, retry 8, min Tsdr 8, factors 8 + 8". The applications are one, and
/// there is no byte that should be zero.
fn station_of(bytes: &[u8]) -> Header {
    Header {
        address: bytes[0],
        baud: bytes[1],
        slot: number(&bytes[2..4]) as u16,
        rotation: number(&bytes[4..8]) as u32,
        gap: bytes[8],
        hsa: bytes[9],
        retry: bytes[10],
        min_tsdr: bytes[11],
        applications: APPLICATIONS,
        factors: (bytes[12], bytes[13]),
        zero: 0,
    }
}

/// Whether two of the stations have the same of something.
fn two_equal(stations: &[Header], of: fn(&Header) -> u8) -> bool {
    (0..stations.len()).any(|i| stations[..i].iter().any(|other| of(other) == of(&stations[i])))
}

/// Whether two of the stations differ in something.
fn two_differ(stations: &[Header], of: fn(&Header) -> u8) -> bool {
    stations.iter().any(|one| stations.iter().any(|other| of(one) != of(other)))
}

impl Setup {
    /// The setup, or the number of its refusal: "order 29, 28, 35, 30, 27, then each station's settings", with 17 where the
    /// bytes are fewer than the head, and after 29 where they are not those of so many stations.
    pub fn read(bytes: &[u8]) -> Result<Setup, u8> {
        if bytes.len() < HEAD {
            return Err(17);
        }
        let count = usize::from(bytes[0]);
        if !STATIONS.contains(&count) {
            return Err(29);
        }
        if bytes.len() != HEAD + STATION * count {
            return Err(17);
        }
        let (tick, ticks) = (number(&bytes[1..5]), number(&bytes[5..9]));
        if !TICK.contains(&tick) {
            return Err(28);
        }
        if ticks > MOST_TICKS {
            return Err(35);
        }
        let mut stations: Vec<Header> = bytes[HEAD..].chunks(STATION).map(station_of).collect();
        if two_differ(&stations, |station| station.baud) {
            return Err(30);
        }
        if two_equal(&stations, |station| station.address) {
            return Err(27);
        }
        // in the order given
        if let Some(refusal) = stations.iter().find_map(|station| station.refusal()) {
            return Err(refusal);
        }
        stations.sort_by_key(|station| station.address);
        Ok(Setup { tick, ticks, stations })
    }

    /// The setup's bytes, its stations by rising address.
    pub fn write(&self) -> Vec<u8> {
        let mut bytes = vec![self.stations.len() as u8];
        bytes.extend((self.tick as u32).to_be_bytes());
        bytes.extend((self.ticks as u32).to_be_bytes());
        for station in &self.stations {
            let header = station.write();
            // the header's bytes without the number of applications and the last
            bytes.extend([&header[..12], &header[13..15]].concat());
        }
        bytes
    }

    /// How long so many bytes take: "start + time of 11 bits a byte, by the station's own rule and rounding".
    fn time_of(&self, bytes: u32) -> u64 {
        let baudrate = Baudrate::of_code(self.stations[0].baud).expect("an accepted baud code");
        baudrate.bits_to_time(11 * bytes).total_micros()
    }

    /// Runs it and shows each poll: the tick, the station's place by rising address, its record and its answer.
    pub fn run(&self, show: &mut dyn FnMut(u64, usize, &PollRecord, &Answer)) -> Vec<Transmission> {
        let mut seats: Vec<Seat> = self.stations.iter().map(Seat::new).collect();
        let mut sent: Vec<Transmission> = Vec::new();
        for k in 0..self.ticks {
            // "one clock from 0"
            let now = k * self.tick;
            let bus = self.recent(&sent, now).to_vec();
            // "At each tick stations are polled by rising address."
            for (place, seat) in seats.iter_mut().enumerate() {
                let record = seat.record(now, place, self.tick, &bus);
                let answer = seat.runner.poll(&record);
                show(k, place, &record, &answer);
                // "Telegrams not consumed stand first in that station's next record"
                seat.waiting = record.telegrams[usize::from(answer.consumed)..].to_vec();
                if let Some(telegram) = telegram_of(seat.address, &answer.sent) {
                    let end = now + self.time_of(answer.sent.bytes().into());
                    sent.push(Transmission { start: now, end, place, telegram });
                }
            }
        }
        sent
    }

    /// The last of what was sent: no earlier one is due now, is being sent now, or has met one that is due.
    fn recent<'a>(&self, sent: &'a [Transmission], now: u64) -> &'a [Transmission] {
        let reach = self.tick + 2 * self.time_of(LONGEST);
        let count = sent.iter().rev().take_while(|one| one.start + reach >= now).count();
        &sent[sent.len() - count..]
    }
}

/// What was sent: by which station, when it starts and ends.
#[derive(Debug, Clone, Copy, PartialEq, Eq)]
pub struct Transmission {
    pub start: u64,
    pub end: u64,
    pub place: usize,
    pub telegram: Telegram,
}

impl Transmission {
    /// "If one starts before another has ended": the two are on the bus at the same time.
    pub fn meets(&self, other: &Transmission) -> bool {
        self.start < other.end && other.start < self.end
    }

    /// "neither is delivered"
    pub fn lost(&self, sent: &[Transmission]) -> bool {
        sent.iter().any(|other| (other.start, other.place) != (self.start, self.place) && self.meets(other))
    }

    /// Whether this is "the first later tick at or after the end of its transmission".
    pub fn due(&self, now: u64, tick: u64) -> bool {
        let later = now > self.start && now >= self.end;
        let before = now.checked_sub(tick);
        later && !before.map_or(false, |before| before > self.start && before >= self.end)
    }
}

/// What the answer says was sent, as others hear it; `None` where it was nothing. "A status response is delivered with status
/// 0." The application declines, so that none of its telegrams is there.
fn telegram_of(source: u8, sent: &Sent) -> Option<Telegram> {
    match *sent {
        Sent::Nothing => None,
        Sent::Token { destination } => Some(Telegram::Token { destination, source }),
        Sent::StatusRequest { destination } => Some(Telegram::status_request(source, destination)),
        Sent::StatusResponse { destination, response_type } => {
            Some(Telegram::Response { destination, source, station_type: response_type, status: 0 })
        }
        Sent::Application { .. } => panic!("an application that declines has sent"),
    }
}

/// A station of a run, and the telegrams that it has not consumed.
struct Seat {
    address: u8,
    runner: Runner,
    waiting: Vec<Telegram>,
}

impl Seat {
    /// "is online before the first tick"
    fn new(station: &Header) -> Seat {
        let mut runner = Runner::new(station);
        runner.entry(Entry::Online);
        Seat { address: station.address, runner, waiting: Vec::new() }
    }

    /// The station's record at this tick, by what is on the bus.
    fn record(&self, now: u64, place: usize, tick: u64, bus: &[Transmission]) -> PollRecord {
        let (own, others): (Vec<Transmission>, Vec<Transmission>) = bus.iter().partition(|one| one.place == place);
        // "pending bytes are 0"
        let mut record = PollRecord::silent(now, APPLICATIONS.into());
        // "The sender's record reports transmitting at ticks before the end."
        record.transmitting = own.iter().any(|one| one.start < now && now < one.end);
        // "put into every other station's record"
        let arrived = others.iter().filter(|one| one.due(now, tick) && !one.lost(bus));
        record.telegrams = self.waiting.iter().copied().chain(arrived.map(|one| one.telegram)).collect();
        let beyond = record.telegrams.len().saturating_sub(MOST);
        record.telegrams.drain(..beyond);
        record
    }
}

/// Simulates a setup: "ticks × 256 + number", and in the report "8 bytes an answer, tick by tick, within a tick by rising
/// address".
pub fn simulate(setup: &[u8], report: &mut [u8]) -> u64 {
    let setup = match Setup::read(setup) {
        Ok(setup) => setup,
        Err(number) => return number.into(),
    };
    if (report.len() as u64) < ANSWER as u64 * setup.stations.len() as u64 * setup.ticks {
        return 18;
    }
    let mut at = 0;
    setup.run(&mut |_, _, _, answer| {
        report[at..at + ANSWER].copy_from_slice(&answer.encode());
        at += ANSWER;
    });
    256 * setup.ticks
}

/// Simulates a setup for one station: "bytes written × 256 + number", and "the trace of the station with that place by rising
/// address, from 0: its header, online, and the record of each tick".
pub fn simulated_trace(setup: &[u8], station: u8, trace: &mut [u8]) -> u64 {
    let setup = match Setup::read(setup) {
        Ok(setup) => setup,
        Err(number) => return number.into(),
    };
    let wanted = usize::from(station);
    if wanted >= setup.stations.len() {
        return 29;
    }
    // "Its header is of edition 1.", and byte 0 is online
    let mut bytes = [setup.stations[wanted].write(), vec![0]].concat();
    setup.run(&mut |_, place, record, _| {
        if place == wanted {
            bytes.extend(entry_of(&record.encode()));
        }
    });
    if trace.len() < bytes.len() {
        return 18;
    }
    trace[..bytes.len()].copy_from_slice(&bytes);
    256 * bytes.len() as u64
}

#[cfg(test)]
mod tests {
    use super::*;

    fn sent(place: usize, start: u64, end: u64) -> Transmission {
        Transmission { start, end, place, telegram: Telegram::token(place as u8, 9) }
    }

    #[test]
    fn what_meets_is_lost() {
        let one = sent(0, 100, 166);
        // of the same tick, within, one microsecond before the end; at the end and after it
        for (start, meets) in [(100, true), (120, true), (165, true), (166, false), (200, false)] {
            let other = sent(1, start, start + 66);
            assert_eq!((one.meets(&other), other.meets(&one)), (meets, meets), "{}", start);
            assert_eq!((one.lost(&[one, other]), other.lost(&[one, other])), (meets, meets), "{}", start);
        }
        assert!(!one.lost(&[one]));
        // the second is lost by the first and spoils the third, which the first has not met
        let (second, third) = (sent(1, 160, 226), sent(2, 200, 266));
        let all = [one, second, third];
        assert_eq!(all.map(|one| one.lost(&all)), [true; 3]);
        assert!(!one.meets(&third));
    }

    #[test]
    fn it_is_due_at_one_tick() {
        let ticks_due = |start, end, tick: u64| -> Vec<u64> {
            (0..20).map(|k| k * tick).filter(|now| sent(0, start, end).due(*now, tick)).collect()
        };
        assert_eq!(ticks_due(100, 166, 10), [170]);
        assert_eq!(ticks_due(100, 170, 10), [170]);
        assert_eq!(ticks_due(100, 171, 10), [180]);
        assert_eq!(ticks_due(0, 66, 100), [100]);
        assert_eq!(ticks_due(200, 266, 100), [300]);
        assert_eq!(ticks_due(4, 5, 1), [5]);
    }

    #[test]
    fn what_a_record_lists() {
        let mut seat = Seat::new(&Header::EXAMPLE_12);
        let bus = [sent(0, 0, 66), sent(1, 0, 66)];
        // two that met
        assert_eq!(seat.record(100, 2, 100, &bus).telegrams, []);
        // one of another station, then our own
        assert_eq!(seat.record(100, 2, 100, &bus[..1]).telegrams, [Telegram::token(0, 9)]);
        assert_eq!(seat.record(100, 0, 100, &bus[..1]).telegrams, []);
        // nine: the oldest falls away, and the newest stands last
        seat.waiting = (10..18).map(|source| Telegram::token(source, 9)).collect();
        let listed = seat.record(100, 2, 100, &bus[..1]).telegrams;
        let sources: Vec<Option<u8>> = listed.iter().map(Telegram::source).collect();
        assert_eq!(sources, [11, 12, 13, 14, 15, 16, 17, 0].map(Some));
        // nothing arrives: all that waits is listed
        assert_eq!(seat.record(100, 0, 100, &bus[..1]).telegrams, seat.waiting);
    }

    #[test]
    fn who_is_transmitting() {
        let seat = Seat::new(&Header::EXAMPLE_12);
        let bus = [sent(0, 100, 166), sent(1, 100, 166)];
        for (now, transmitting) in [(100, false), (101, true), (165, true), (166, false), (167, false)] {
            // lost or not, and the sender alone
            assert_eq!(seat.record(now, 0, 1, &bus).transmitting, transmitting, "{}", now);
            assert_eq!(seat.record(now, 0, 1, &bus[..1]).transmitting, transmitting, "{}", now);
            assert!(!seat.record(now, 2, 1, &bus).transmitting);
        }
    }

    #[test]
    fn a_setup_is_read_as_it_is_written() {
        let station = |address| Header { address, factors: (1, 2), ..Header::EXAMPLE_12 };
        let setup = Setup { tick: 400, ticks: 70_000, stations: vec![station(2), station(5)] };
        let bytes = setup.write();
        assert_eq!(bytes[..HEAD], [2, 0, 0, 1, 0x90, 0, 1, 0x11, 0x70]);
        assert_eq!(bytes[HEAD..HEAD + STATION], [2, 6, 0, 200, 0, 0, 0x7e, 0xb4, 10, 126, 1, 11, 1, 2]);
        assert_eq!(Setup::read(&bytes), Ok(setup));
    }
}
