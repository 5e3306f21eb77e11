//! One accepted poll, as the cases look at it.

use crate::fdl::{Parameters, Watched};
use crate::records::{state::*, Answer, PollRecord, Sent, Telegram};
use crate::ring::{Next, LAST};

/// Cases of a token that the ring witnesses.
pub const WITNESSED: [&str; 7] = [
    "source above 125",
    "destination above 125",
    "source is destination",
    "own lies between",
    "from 125 on to 0",
    "the ring grows",
    "the ring shrinks",
];

/// Cases of the gap walk of a lone station, but for the replies. "The gap walk still covers all other addresses."
pub const WALKS_ALONE: [&str; 9] = [
    "waiting is counted",
    "waiting is over",
    "an address above own is asked",
    "0 is asked after the last below HSA",
    "an address below own is asked",
    "the walk ends at own",
    "no reply",
    "an unexpected telegram",
    "a reply makes two of us",
];

/// One poll that was accepted: the station before it, what it was, its answer, and the station after it.
pub struct Poll<'a> {
    pub parameters: &'a Parameters,
    pub own: u8,
    pub was: Watched,
    /// The ring before: the next station, whether it is ready, its laps, its size.
    pub next: Next,
    pub ready: bool,
    pub laps: u8,
    pub size: usize,
    pub record: PollRecord,
    pub answer: Answer,
    pub is: Watched,
    pub size_after: usize,
}

impl Poll<'_> {
    /// The state in which the poll is handled.
    pub fn handled_in(&self) -> u8 {
        self.was.handled_in()
    }

    /// The request that waits for its answer in that state.
    pub fn request(&self) -> Option<u8> {
        self.was.status_request.filter(|_| self.handled_in() == self.was.state)
    }

    /// How long it is since the last activity, where nothing is being transmitted.
    pub fn waited(&self) -> Option<i64> {
        let last = self.was.last_bus_activity?.total_micros();
        let waited = self.record.clock as i64 - last;
        (!self.record.transmitting && waited > 0).then_some(waited)
    }

    /// The cases of the tokens that were witnessed, as numbers of `WITNESSED`. Tokens by our address are collisions.
    pub fn witnessed(&self) -> Vec<usize> {
        let mut cases = Vec::new();
        for telegram in &self.record.telegrams[..usize::from(self.answer.consumed)] {
            let (source, destination) = match *telegram {
                Telegram::Token { source, destination } if source != self.own => (source, destination),
                _ => continue,
            };
            let legal = source <= LAST && destination <= LAST;
            let up_to = |address: u8| (u16::from(address) + 126 - u16::from(source)) % 126;
            let met = [
                source > LAST,
                destination > LAST,
                legal && source == destination,
                legal && 0 < up_to(self.own) && up_to(self.own) < up_to(destination),
                legal && destination < source,
                self.size_after > self.size,
                self.size_after < self.size,
            ];
            cases.extend((0..met.len()).filter(|case| met[*case]));
        }
        cases
    }

    /// The awaited reply to a gap question: the station's type, and whether its status is Ok.
    pub fn gap_reply(&self) -> Option<(u8, bool)> {
        if self.was.state != AWAIT_STATUS_RESPONSE || self.answer.consumed == 0 {
            return None;
        }
        match self.record.telegrams[0] {
            Telegram::Response { destination, source, station_type, status }
                if destination == self.own && Some(source) == self.was.awaited =>
            {
                Some((station_type, status == 0))
            }
            _ => None,
        }
    }

    /// The cases of a lone station's gap walk, as numbers of `WALKS_ALONE`.
    pub fn walks_alone(&self) -> Vec<usize> {
        let (was, is) = (&self.was, &self.is);
        if self.next != Next::Nobody {
            return Vec::new();
        }
        let asks = match self.answer.sent {
            Sent::StatusRequest { destination } => Some(destination),
            _ => None,
        };
        let passes = matches!(self.answer.sent, Sent::Token { .. });
        let asked = |from: u8, to: u8| asks.map_or(false, |address| from <= address && address < to);
        let walks = was.state == PASS_TOKEN && was.do_gap;
        let waits = was.state == AWAIT_STATUS_RESPONSE;
        let met = [
            walks && passes && is.gap_count > was.gap_count,
            walks && asks.is_some() && was.gap_poll.is_none(),
            asked(self.own + 1, LAST + 1),
            asked(0, 1) && was.gap_poll == Some(self.parameters.highest_station_address - 1),
            asked(0, self.own),
            walks && passes && was.gap_poll.is_some() && is.gap_poll.is_none(),
            waits && passes,
            waits && is.state == ACTIVE_IDLE,
            self.gap_reply().is_some() && self.size_after == 2,
        ];
        (0..met.len()).filter(|case| met[*case]).collect()
    }

    /// "Consumed: none where a transmission is found going on (outcome 2, nothing sent). Else the two reply-waiting states
    /// the first telegram, if any; ListenToken and ActiveIdle all, but none in a poll that claims or has a request to
    /// answer; CheckTokenPass all, but none once the slot has expired; any other poll none." A claim and an expired slot
    /// are seen by the token that is then sent. Document 02: "PassiveIdle consumes telegrams .. as ListenToken does".
    pub fn consumed_as_document_01_says(&self) -> usize {
        let all = self.record.telegrams.len();
        let sends_token = matches!(self.answer.sent, Sent::Token { .. });
        if self.was.offline() || (self.answer.outcome == 2 && self.answer.sent == Sent::Nothing) {
            return 0;
        }
        match self.handled_in() {
            AWAIT_DATA_RESPONSE | AWAIT_STATUS_RESPONSE => all.min(1),
            LISTEN_TOKEN | ACTIVE_IDLE | PASSIVE_IDLE if sends_token || self.request().is_some() => 0,
            CHECK_TOKEN_PASS if sends_token => 0,
            LISTEN_TOKEN | ACTIVE_IDLE | PASSIVE_IDLE | CHECK_TOKEN_PASS => all,
            _ => 0,
        }
    }

    /// The questions of time that this poll asks, each with how far it is from where the answer changes.
    pub fn times(&self) -> Vec<(&'static str, i64)> {
        let (was, p) = (&self.was, self.parameters);
        let mut asked = Vec::new();
        if let (Some(last), false) = (was.last_bus_activity, self.record.transmitting) {
            asked.push(("a transmission going on", self.record.clock as i64 - last.total_micros()));
        }
        let waited = match self.waited() {
            Some(waited) if self.record.pending <= was.pending_bytes as u16 => waited,
            _ => return asked,
        };
        let pause = waited - p.bits_to_time(33).total_micros() as i64;
        let slot = waited - p.slot_time().total_micros() as i64;
        let lost = waited - p.token_lost_timeout().total_micros() as i64;
        let silent = self.record.telegrams.is_empty();
        let request = self.request().is_some();
        let answers = request && lost < 0;
        match self.handled_in() {
            LISTEN_TOKEN => {
                asked.push(("lost token in ListenToken", lost));
                asked.extend(answers.then_some(("pause before an answer in ListenToken", pause)));
            }
            ACTIVE_IDLE => {
                asked.push(("lost token in ActiveIdle", lost));
                asked.extend(answers.then_some(("pause before an answer in ActiveIdle", pause)));
            }
            USE_TOKEN => {
                asked.push(("pause in UseToken", pause));
                let end = self.record.clock as i64 - self.is.end_token_hold_time.total_micros();
                let question =
                    if was.first_cycle_done { "end of hold, a cycle done" } else { "end of hold, no cycle done" };
                asked.extend((pause >= 0).then_some((question, end)));
            }
            PASSIVE_IDLE => {
                asked.push(("lost token, not asked in PassiveIdle", lost));
                asked.extend(request.then_some(("pause before an answer in PassiveIdle", pause)));
            }
            CLAIM_TOKEN => asked.push(("pause in ClaimToken", pause)),
            AWAIT_DATA_RESPONSE if silent => asked.push(("slot in AwaitDataResponse", slot)),
            PASS_TOKEN => asked.push(("pause in PassToken", pause)),
            CHECK_TOKEN_PASS => asked.push(("slot in CheckTokenPass", slot)),
            AWAIT_STATUS_RESPONSE if silent => asked.push(("slot in AwaitStatusResponse", slot)),
            _ => {}
        }
        asked
    }
}
