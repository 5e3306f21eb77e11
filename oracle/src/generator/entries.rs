//! The entries of a trace. The generator lets a station of the oracle run along, so that it knows the state, the times and
//! the ring, and aims each entry at what is near: a time one microsecond before, at and after a boundary, a telegram of the
//! awaited or of a strange station, a decision, a bad record.

use super::bad_records::bad_record;
use super::seed::Seed;
use crate::fdl::Watched;
use crate::records::{entry_of, state::*, Decision, PollRecord, Telegram, LAST_CLOCK};
use crate::ring::{Address, LAST};
use crate::time::Instant;
use crate::trace::{Entry, Header, Runner};

/// Makes one trace's entries.
pub struct Maker {
    pub seed: Seed,
    header: Header,
    runner: Runner,
    /// The other stations on the bus, in ring order going up from own.
    others: Vec<Address>,
    /// Where in the circle the next token between others starts.
    circle: usize,
    /// How many tokens of the circle were heard.
    heard: usize,
    /// Whether the station is told to be passive often, or now and then.
    often_passive: bool,
    clock: u64,
}

impl Maker {
    pub fn new(mut seed: Seed, header: Header) -> Maker {
        let count = match seed.below(12) {
            0..=2 => 0,
            3..=5 => 1,
            6..=9 => seed.between(2, 8),
            10 => seed.between(9, 125),
            _ => 125,
        };
        let mut others: Vec<Address> = (0..=LAST).filter(|a| *a != header.address).collect();
        seed.shuffle(&mut others);
        others.truncate(count as usize);
        others.sort_by_key(|a| (a + 126 - header.address) % 126);
        let clock = match seed.below(8) {
            0 => 0,
            1 => LAST_CLOCK - seed.below(3_000_000),
            _ => seed.below(1 << 34),
        };
        let often_passive = seed.one_in(4);
        Maker { seed, header, runner: Runner::new(&header), others, circle: 0, heard: 0, often_passive, clock }
    }

    /// The next entry, aimed at the station as it is; the station then does it.
    pub fn next_entry(&mut self) -> Vec<u8> {
        let watched = self.runner.station.watch();
        let bytes = match self.command(&watched) {
            Some(command) => vec![command],
            None => {
                let record = self.record(&watched);
                if self.seed.one_in(30) {
                    entry_of(&bad_record(&mut self.seed, &record))
                } else {
                    record.entry()
                }
            }
        };
        if let Some((entry, _)) = Entry::first(&bytes) {
            self.runner.entry(entry);
        }
        bytes
    }

    /// A command now and then; mostly online where the station is offline. A passive station is told to be online sooner or
    /// later, and more often before its next poll.
    fn command(&mut self, watched: &Watched) -> Option<u8> {
        if watched.offline() && !self.seed.one_in(4) {
            return Some(if self.often_passive && self.seed.one_in(3) { 2 } else { 0 });
        }
        let moves_next = watched.passive && watched.state <= ACTIVE_IDLE;
        let patience = if moves_next { 4 } else { 16 };
        if watched.passive && self.seed.one_in(patience) {
            return Some(0);
        }
        let noted = watched.online && watched.status_request.is_some();
        if self.often_passive && watched.online && self.seed.one_in(if noted { 8 } else { 20 }) {
            return Some(2);
        }
        match self.seed.below(200) {
            0 => Some(1),
            1 | 2 => Some(2),
            3 => Some(0),
            _ => None,
        }
    }

    /// The time of so many bits.
    fn time(&self, bits: u32) -> i64 {
        self.runner.station.parameters().bits_to_time(bits).total_micros() as i64
    }

    fn slot(&self) -> i64 {
        self.time(self.header.slot.into())
    }

    fn lost(&self) -> i64 {
        self.runner.station.parameters().token_lost_timeout().total_micros() as i64
    }

    /// A time near this one: one microsecond before, the same, one after, or somewhat later.
    fn near(&mut self, time: i64) -> u64 {
        let shift = match self.seed.below(8) {
            0 | 1 => -1,
            2..=4 => 0,
            5 | 6 => 1,
            _ => self.seed.below(200) as i64,
        };
        (time + shift).clamp(0, LAST_CLOCK as i64) as u64
    }

    /// A time soon after the last activity, before anything is over.
    fn soon(&mut self, last: i64) -> u64 {
        let span = self.slot().max(4) as u64;
        let step = match self.seed.below(4) {
            0 => 1,
            1 => self.seed.between(1, span / 2),
            _ => self.seed.between(1, span / 4),
        };
        (last + step as i64).clamp(0, LAST_CLOCK as i64) as u64
    }

    /// The clock of the next poll.
    fn clock(&mut self, watched: &Watched, hears: bool) -> u64 {
        let last = match watched.last_bus_activity {
            Some(last) => last.total_micros(),
            // a passive station may have been polled and know of no activity still
            None if self.seed.one_in(if watched.state == PASSIVE_IDLE { 3 } else { 12 }) => return self.clock,
            None if watched.state == PASSIVE_IDLE && self.seed.one_in(3) => {
                return self.near(self.clock as i64 + self.lost())
            }
            None => return (self.clock + self.seed.below(3 * self.slot() as u64)).min(LAST_CLOCK),
        };
        match self.seed.below(60) {
            0 => return self.near(last),
            1 => return self.clock.saturating_sub(self.seed.below(100_000)),
            2 => return self.seed.below(LAST_CLOCK + 1),
            3 => return self.clock,
            4 => return self.near(last + self.slot()),
            5 => return self.near(last + self.time(33)),
            6 => return self.near(watched.end_token_hold_time.total_micros()),
            7 => return self.seed.pick(&[0, 1, LAST_CLOCK, LAST_CLOCK - 1]),
            _ => {}
        }
        let pause = last + self.time(33);
        match watched.state {
            // a request to answer, a claim, a token to use or pass: the pause
            LISTEN_TOKEN | ACTIVE_IDLE | PASSIVE_IDLE if watched.status_request.is_some() => self.near(pause),
            CLAIM_TOKEN | PASS_TOKEN => self.near(pause),
            USE_TOKEN => {
                let end = self.hold_end(watched).total_micros();
                if end > pause && self.seed.one_in(3) {
                    self.near(end)
                } else {
                    self.near(pause)
                }
            }
            // listening: what is heard comes soon, else the token is lost
            OFFLINE..=ACTIVE_IDLE | PASSIVE_IDLE if hears => self.soon(last),
            OFFLINE..=ACTIVE_IDLE | PASSIVE_IDLE => self.near(last + self.lost()),
            // waiting: the reply comes soon, else the slot expires
            _ if hears && !self.seed.one_in(8) => self.soon(last),
            _ => self.near(last + self.slot()),
        }
    }

    /// The end of hold as UseToken will find it.
    fn hold_end(&self, watched: &Watched) -> Instant {
        match watched.token_time {
            Some(time) if time != watched.last_token_time => {
                let parameters = self.runner.station.parameters();
                let mut end = watched.last_token_time + parameters.token_rotation_time();
                if watched.gap_poll.is_some() {
                    end -= parameters.bits_to_time(u32::from(self.header.slot) + 100);
                }
                end
            }
            _ => watched.end_token_hold_time,
        }
    }

    /// A record for the station as it is.
    fn record(&mut self, watched: &Watched) -> PollRecord {
        let telegrams = self.telegrams(watched);
        let clock = self.clock(watched, !telegrams.is_empty());
        self.clock = clock;
        let pending = match self.seed.below(12) {
            0 => self.seed.below(2048) as u16,
            1 => (watched.pending_bytes as u16).min(2046) + 1,
            2 => watched.pending_bytes as u16,
            3 | 4 => 3 * telegrams.len() as u16,
            _ => 0,
        };
        let transmitting = self.seed.one_in(50);
        let decisions = (0..self.header.applications).map(|_| (self.decision(), self.decision())).collect();
        PollRecord { clock, transmitting, pending, decisions, telegrams }
    }

    fn decision(&mut self) -> Decision {
        let length = match self.seed.below(4) {
            0 => 1,
            1 => 255,
            _ => self.seed.between(1, 40) as u8,
        };
        match self.seed.below(8) {
            0..=3 => Decision::Declines,
            4 => Decision::Sends { reply: None, length },
            _ => Decision::Sends { reply: Some(self.address()), length },
        }
    }

    /// The next and the previous station of the ring.
    fn neighbours(&self) -> (Address, Address) {
        let ring = self.runner.station.inspect_token_ring();
        (ring.next_station(), ring.previous_station())
    }

    /// Some address: of the bus, of the ring, own, any.
    fn address(&mut self) -> Address {
        let (next, previous) = self.neighbours();
        match self.seed.below(16) {
            0..=5 if !self.others.is_empty() => self.seed.pick(&self.others),
            6 | 7 => next,
            8 | 9 => previous,
            10 => self.header.address,
            11 => self.seed.pick(&[0, 124, 125, 126, 127]),
            _ => self.seed.below(126) as u8,
        }
    }

    fn any_telegram(&mut self) -> Telegram {
        let destination = if self.seed.coin() { self.header.address } else { self.address() };
        let source = self.address();
        match self.seed.below(9) {
            0..=2 => Telegram::Token { destination, source },
            3 => Telegram::ShortConfirmation,
            4 => Telegram::Request { destination, source, status_request: false },
            5 | 6 => Telegram::status_request(source, destination),
            _ => self.response(destination, source),
        }
    }

    fn any_telegrams(&mut self, most: u64) -> Vec<Telegram> {
        (0..self.seed.between(1, most)).map(|_| self.any_telegram()).collect()
    }

    fn response(&mut self, destination: Address, source: Address) -> Telegram {
        let station_type = self.seed.below(4) as u8;
        let status = if self.seed.one_in(4) { self.seed.between(1, 15) as u8 } else { 0 };
        Telegram::Response { destination, source, station_type, status }
    }

    /// Tokens that another station sends by our address: collisions; now and then each with a token of the next station behind
    /// it, which ends the row.
    fn collisions(&mut self) -> Vec<Telegram> {
        let (own, next) = (self.header.address, self.neighbours().0);
        if self.seed.one_in(3) {
            let rows = self.seed.between(2, 3);
            return (0..rows)
                .flat_map(|_| [Telegram::token(own, self.address()), Telegram::token(next, next)])
                .collect();
        }
        (0..self.seed.between(1, 3)).map(|_| Telegram::token(own, self.address())).collect()
    }

    /// The tokens of the others' circle from where it stands, as far as there are others.
    fn circle_tokens(&mut self, count: u64) -> Vec<Telegram> {
        let n = self.others.len();
        if n == 0 {
            return Vec::new();
        }
        self.heard += count as usize;
        let start = self.circle;
        self.circle = (start + count as usize) % n;
        (start..start + count as usize).map(|i| Telegram::token(self.others[i % n], self.others[(i + 1) % n])).collect()
    }

    /// What is heard in this poll.
    fn telegrams(&mut self, watched: &Watched) -> Vec<Telegram> {
        if self.seed.one_in(20) {
            return self.any_telegrams(8);
        }
        // while a request waits for its answer, mostly nothing more is heard
        if watched.status_request.is_some() && !self.seed.one_in(4) {
            return Vec::new();
        }
        match watched.state {
            PASSIVE_IDLE => self.heard_passive(watched),
            OFFLINE | LISTEN_TOKEN | ACTIVE_IDLE if watched.passive => self.heard_passive(watched),
            OFFLINE | LISTEN_TOKEN => self.heard_listening(),
            ACTIVE_IDLE => self.heard_idle(watched),
            AWAIT_DATA_RESPONSE | AWAIT_STATUS_RESPONSE => self.heard_waiting(watched),
            CHECK_TOKEN_PASS => self.heard_after_pass(),
            // nothing is taken there; seldom something is listed
            _ if self.seed.one_in(10) => vec![self.any_telegram()],
            _ => Vec::new(),
        }
    }

    fn heard_listening(&mut self) -> Vec<Telegram> {
        let others = self.others.len();
        if self.heard < others && !self.seed.one_in(30) {
            // a large ring has to be heard once
            let count = self.seed.between(6, 8);
            return self.circle_tokens(count);
        }
        match self.seed.below(20) {
            0..=8 if others > 0 => {
                let count = if others > 8 { 8 } else { self.seed.between(1, 8) };
                self.circle_tokens(count)
            }
            9..=13 => {
                let count = self.seed.below(3);
                let mut heard = self.circle_tokens(count);
                let source = if self.seed.one_in(3) { self.address() } else { self.neighbours().1 };
                heard.push(Telegram::status_request(source, self.header.address));
                heard
            }
            14 => self.collisions(),
            15 => self.any_telegrams(4),
            _ => Vec::new(),
        }
    }

    /// As in listening, with requests of addresses that no ring has, and our own address as source.
    fn heard_passive(&mut self, watched: &Watched) -> Vec<Telegram> {
        if watched.last_bus_activity.is_none() && self.seed.coin() {
            return Vec::new();
        }
        let own = self.header.address;
        match self.seed.below(12) {
            0 => vec![Telegram::status_request(self.seed.pick(&[126, 127]), own)],
            1 => vec![Telegram::status_request(own, own)],
            2 => vec![Telegram::token(own, self.address()); self.seed.between(1, 3) as usize],
            3 => {
                let source = self.address();
                vec![Telegram::status_request(source, own), self.any_telegram()]
            }
            4 => self.any_telegrams(8),
            5..=6 => Vec::new(),
            _ => self.heard_listening(),
        }
    }

    fn heard_idle(&mut self, watched: &Watched) -> Vec<Telegram> {
        let own = self.header.address;
        let previous = self.neighbours().1;
        let count = self.seed.below(3);
        let mut heard = if self.seed.coin() { self.circle_tokens(count) } else { Vec::new() };
        match self.seed.below(20) {
            0..=5 => heard.push(Telegram::token(previous, own)),
            6..=8 => heard.push(Telegram::token(watched.new_previous_station.unwrap_or(previous), own)),
            9..=11 => heard.push(Telegram::token(self.address(), own)),
            12..=14 => heard.push(Telegram::status_request(self.address(), own)),
            15 => heard.extend(self.collisions()),
            16 => heard.push(self.any_telegram()),
            17 => heard.extend([self.any_telegram(), self.any_telegram()]),
            _ => heard.clear(),
        }
        heard
    }

    fn heard_waiting(&mut self, watched: &Watched) -> Vec<Telegram> {
        let own = self.header.address;
        let awaited = watched.awaited.unwrap_or(own);
        let heard = match self.seed.below(20) {
            0..=8 => vec![self.response(own, awaited)],
            // the awaited station, but not to us
            9 => vec![self.response(self.neighbours().0, awaited)],
            10 | 11 if watched.state == AWAIT_DATA_RESPONSE => vec![Telegram::ShortConfirmation],
            12 => vec![self.any_telegram()],
            _ => Vec::new(),
        };
        self.perhaps_more(heard, 6)
    }

    fn heard_after_pass(&mut self) -> Vec<Telegram> {
        let own = self.header.address;
        let (next, previous) = self.neighbours();
        let heard = match self.seed.below(20) {
            0..=3 => vec![Telegram::token(next, self.address())],
            4 => vec![Telegram::token(previous, own)],
            5 => vec![Telegram::status_request(next, own)],
            6 => vec![Telegram::ShortConfirmation],
            7 if self.seed.coin() => vec![Telegram::token(own, next); 2],
            7 => self.collisions(),
            8 => vec![self.any_telegram()],
            _ => Vec::new(),
        };
        self.perhaps_more(heard, 4)
    }

    /// What was heard, once in `n` times with a telegram more.
    fn perhaps_more(&mut self, mut heard: Vec<Telegram>, n: u64) -> Vec<Telegram> {
        if !heard.is_empty() && self.seed.one_in(n) {
            heard.push(self.any_telegram());
        }
        heard
    }
}
