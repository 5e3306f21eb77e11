//! A trace is walked entry by entry with the oracle's station, and each entry is counted under what it was and what it
//! did. What traces have to reach is named here; a pair of states that is said to be out of reach and is met is an error.

use super::beside;
use super::counts::{self, Living};
use super::events::{events, EVENTS};
use super::heard::{self, Hearing};
use super::moves;
use super::passive::{self, Passive};
use super::points::Points;
use super::poll::{Poll, WALKS_ALONE, WITNESSED};
use super::refusals;
use crate::editions::Edition;
use crate::lines;
use crate::records::{state::*, Answer, Notice, PollRecord, Sent, Telegram, LAST_CLOCK};
use crate::ring::Next;
use crate::trace::{Entry, Header, Runner, Trace, ANSWER};

/// The states by document 01's numbers, and document 02's 9.
pub const STATES: [&str; 10] = [
    "Offline",
    "ListenToken",
    "ActiveIdle",
    "UseToken",
    "ClaimToken",
    "AwaitDataResponse",
    "PassToken",
    "CheckTokenPass",
    "AwaitStatusResponse",
    "PassiveIdle",
];

/// For each state by its number, the numbers that belong to it.
pub type OfStates = [&'static [u8]; 10];

/// For each state, the states in which a poll can leave it where the station is not passive.
///
/// The other pairs cannot be reached by a poll, because of what the published text does:
/// - Offline: a poll that finds the station online goes to ListenToken and on from there. A fresh
///   ListenToken has no request to answer, so ActiveIdle is not reached; ClaimToken is (the activity
///   that a second collision left known), and Offline is (two collisions in that poll).
/// - ListenToken leaves by a second collision, an answer while ready, or a lost token.
/// - ActiveIdle leaves by a token accepted, a second collision, or a lost token.
/// - A lost token is claimed in the same poll (the lost time is at least six slots, a slot at least
///   100 bits, the pause 33), and stays ClaimToken: the second token needs another poll.
/// - UseToken sends, or passes on to PassToken in that poll without sending.
/// - ClaimToken sends its second token and goes to UseToken.
/// - AwaitDataResponse takes a reply (UseToken), something else (ActiveIdle), or a timeout, after
///   which the applications are asked at once (AwaitDataResponse, UseToken, PassToken).
/// - PassToken sends: a gap question, a token to another, or a token to itself.
/// - CheckTokenPass sends again without a gap question, or hears telegrams as ActiveIdle does, so
///   AwaitStatusResponse and ClaimToken are not reached; an expired slot is longer than the pause, so
///   PassToken is not left standing.
/// - AwaitStatusResponse takes a reply (PassToken), something else (ActiveIdle), or passes the token
///   at once when the slot has expired (CheckTokenPass, or UseToken if alone).
/// - PassiveIdle with the station online again: as Offline, but that the activity may be known in other ways too.
const REACHED_BY_POLLS: OfStates = [
    &[0, 1, 4],
    &[0, 1, 2, 4],
    &[1, 2, 3, 4],
    &[3, 5, 6],
    &[3, 4],
    &[2, 3, 5, 6],
    &[3, 6, 7, 8],
    &[1, 2, 3, 7],
    &[2, 3, 6, 7, 8],
    &[0, 1, 4],
];

const OUTCOMES: [&str; 5] = ["none", "offline", "transmission", "bus", "delay"];

/// For each state, the outcomes that a poll in it can have.
const OUTCOMES_OF: OfStates =
    [&[1, 2, 3, 4], &[2, 3, 4], &[2, 3, 4], &[2, 4], &[2, 4], &[2, 3, 4], &[2, 4], &[2, 3, 4], &[2, 3, 4], &[2, 3, 4]];

const SENT: [&str; 5] = ["nothing", "token", "status request", "status response", "application"];

/// For each state, what a poll in it can send.
const SENT_OF: OfStates =
    [&[0, 1], &[0, 1, 3], &[0, 1, 3], &[0, 4], &[0, 1], &[0, 4], &[0, 1, 2], &[0, 1], &[0, 1], &[0, 1]];

/// The states in which a station can be alone: all but CheckTokenPass, which it enters and keeps with another as next.
const ALONE_IN: [u8; 9] = [
    OFFLINE,
    LISTEN_TOKEN,
    ACTIVE_IDLE,
    USE_TOKEN,
    CLAIM_TOKEN,
    AWAIT_DATA_RESPONSE,
    PASS_TOKEN,
    AWAIT_STATUS_RESPONSE,
    PASSIVE_IDLE,
];

/// The entries whose answers carry the next station. Offline makes a fresh station, which is alone.
const ANSWERED: [&str; 5] = ["poll", "online", "passive", "offline", "refused entry"];

/// Company that comes and goes while the station stays online or passive, by the number of stations in its ring.
const COMPANY: [&str; 4] =
    ["alone, then two", "alone, then more than two", "two, then alone", "alone, then two, then alone"];

/// The questions of time, each asked at -1, 0 and +1 microseconds from where its answer changes.
const QUESTIONS: [&str; 15] = [
    "a transmission going on",
    "lost token in ListenToken",
    "lost token in ActiveIdle",
    "pause before an answer in ListenToken",
    "pause before an answer in ActiveIdle",
    "pause before an answer in PassiveIdle",
    "lost token, not asked in PassiveIdle",
    "pause in ClaimToken",
    "pause in UseToken",
    "pause in PassToken",
    "slot in AwaitDataResponse",
    "slot in CheckTokenPass",
    "slot in AwaitStatusResponse",
    "end of hold, no cycle done",
    "end of hold, a cycle done",
];

const SHIFTS: [&str; 3] = ["-1", "0", "+1"];

/// The states that take telegrams.
const HEARING: [u8; 6] =
    [LISTEN_TOKEN, ACTIVE_IDLE, AWAIT_DATA_RESPONSE, CHECK_TOKEN_PASS, AWAIT_STATUS_RESPONSE, PASSIVE_IDLE];

const KINDS: [&str; 9] = [
    "short confirmation",
    "token to us",
    "token to another",
    "request to us",
    "request to another",
    "status request to us",
    "status request to another",
    "response to us",
    "response to another",
];

/// Whether a telegram is the last of its poll.
const LAST: [&str; 2] = ["with more", "last"];

const STATION_TYPES: [&str; 4] = ["slave", "not ready", "without token", "in ring"];
const OK: [&str; 2] = ["not Ok", "Ok"];

const APPLICATION: [&str; 7] = [
    "sends, reply expected",
    "sends, no reply",
    "sends at high priority, reply expected",
    "sends at high priority, no reply",
    "gets a reply",
    "gets a timeout",
    "is next",
];

const ENDINGS: [&str; 11] = [
    "0: all entries answered",
    "0: no entry",
    "17: empty trace",
    "17: in the header",
    "17: in a poll record",
    "17: in a record of under 8 bytes",
    "17: no room for it either",
    "18: before a command",
    "18: before a poll record",
    "18: a buffer of no bytes",
    "18: 1 to 7 bytes left",
];

const CLOCKS: [&str; 4] = ["clock goes back", "clock stands still", "clock 0", "clock 2^48 - 1"];

/// All pairs, as `a LINK b`.
fn pairs<A: ToString, B: ToString>(first: &[A], link: &str, second: &[B]) -> Vec<String> {
    let with = |a: &A| second.iter().map(|b| a.to_string() + link + &b.to_string()).collect::<Vec<_>>();
    first.iter().flat_map(with).collect()
}

/// What was met.
pub struct Met {
    points: Points,
    /// Traces and entries walked, calls that move a header, calls that ask who was heard, calls that ask for the counts, and calls
    /// on a station that is stepped with a table.
    pub traces: u64,
    pub entries: u64,
    pub moves: u64,
    pub asked: u64,
    pub counted: u64,
    pub beside: u64,
}

impl Default for Met {
    fn default() -> Self {
        let mut points = Points::default();
        let tables: [(&str, &OfStates, &[&str], &str); 6] = [
            ("poll", &REACHED_BY_POLLS, &STATES, " -> "),
            ("outcome", &OUTCOMES_OF, &OUTCOMES, ": "),
            ("sent", &SENT_OF, &SENT, ": "),
            ("poll while passive", &passive::REACHED, &STATES, " -> "),
            ("outcome while passive", &passive::OUTCOMES_OF, &OUTCOMES, ": "),
            ("sent while passive", &passive::SENT_OF, &SENT, ": "),
        ];
        for (group, table, names, link) in tables {
            let of = |(state, list): (&&'static str, &&'static [u8])| {
                let listed: Vec<&str> = list.iter().map(|i| names[usize::from(*i)]).collect();
                pairs(&[state], link, &listed)
            };
            points.group(group, STATES.iter().zip(table).flat_map(of));
        }
        points.group("refused entry", pairs(&[12, 13, 14, 15], " in ", &STATES));
        let commands = ["online", "offline", "passive", "transmitting"];
        points.group("command or transmitting", pairs(&commands, " in ", &STATES));
        refusals::name_points(&mut points);
        moves::name_points(&mut points);
        heard::name_points(&mut points);
        counts::name_points(&mut points);
        beside::name_points(&mut points);
        points.group("entries behind", ["16 bytes", "14 bytes"]);
        points.group("ending", ENDINGS);
        points.group("answer buffer", ["all used", "bytes left over", "eight or more left over"]);
        let codes: Vec<usize> = (0..11).collect();
        points.group("time", pairs(&pairs(&QUESTIONS, ", code ", &codes), ", ", &SHIFTS));
        points.group("ring of size", 1..=126);
        points.group("applications", 1..=8);
        points.group("application", pairs(&[0, 1, 2, 3, 4, 5, 6, 7], " ", &APPLICATION));
        let hearing = HEARING.map(|state| STATES[usize::from(state)]);
        points.group("heard", pairs(&pairs(&hearing, ": ", &KINDS), ", ", &LAST));
        points.group("token witnessed", WITNESSED);
        points.group("token witnessed in PassiveIdle", WITNESSED);
        points.group("reply to a gap question", pairs(&STATION_TYPES, ", ", &OK));
        let alone_in = ALONE_IN.map(|state| STATES[usize::from(state)]);
        let offline = ["offline in Offline".to_string()];
        let answered = [ANSWERED[0], ANSWERED[1], ANSWERED[2], ANSWERED[4]];
        let nobody = pairs(&answered, " in ", &alone_in).into_iter().chain(offline);
        points.group("answered with nobody", nobody);
        let neighboured = STATES.iter().skip(1).copied().collect::<Vec<_>>();
        points.group("answered with a station", pairs(&answered, " in ", &neighboured));
        points.group("company", COMPANY);
        points.group("gap walk alone", WALKS_ALONE);
        points.group("reply to a gap question alone", pairs(&STATION_TYPES, ", ", &OK));
        points.group("event", CLOCKS.iter().chain(&EVENTS));
        passive::name_points(&mut points);
        Met { points, traces: 0, entries: 0, moves: 0, asked: 0, counted: 0, beside: 0 }
    }
}

impl Met {
    /// Walks a trace and counts it.
    pub fn see(&mut self, trace: &Trace) {
        self.traces += 1;
        let bytes = trace.bytes();
        self.moves += moves::see(&mut self.points, trace);
        self.asked += heard::see(&mut self.points, trace);
        self.counted += counts::see(&mut self.points, trace);
        self.beside += beside::see(&mut self.points, trace);
        refusals::see_start(&mut self.points, &bytes);
        let header = match Header::read(&bytes) {
            Some(header) if header.refusal().is_some() => return,
            Some(header) => header,
            None => {
                let ending = if bytes.is_empty() { "17: empty trace" } else { "17: in the header" };
                return self.points.hit("ending", ending);
            }
        };
        let edition = Edition::of(&bytes);
        let mut rest = &bytes[edition.length()..];
        self.points.hit("applications", header.applications);
        let mut runner = Runner::new(&header);
        let (mut room, mut clock, mut company) = (trace.room, None, Company::default());
        let mut kept = Kept::default();
        if rest.is_empty() {
            return self.points.hit("ending", "0: no entry");
        }
        self.points.hit("entries behind", if edition == Edition::First { "16 bytes" } else { "14 bytes" });
        while !rest.is_empty() {
            let mut ends = |condition: bool, ending| {
                if condition {
                    self.points.hit("ending", ending);
                }
            };
            let (entry, after) = match Entry::first(rest) {
                Some(found) => found,
                None => {
                    ends(true, "17: in a poll record");
                    ends(rest[0] < 8, "17: in a record of under 8 bytes");
                    return ends(room < ANSWER, "17: no room for it either");
                }
            };
            if room < ANSWER {
                let poll = matches!(entry, Entry::Poll(_));
                ends(!poll, "18: before a command");
                ends(poll, "18: before a poll record");
                ends(trace.room == 0, "18: a buffer of no bytes");
                return ends(room > 0, "18: 1 to 7 bytes left");
            }
            self.see_entry(&header, &mut runner, entry, &mut clock, &mut kept);
            for case in company.after(&runner) {
                self.points.hit("company", COMPANY[case]);
            }
            rest = after;
            room -= ANSWER;
        }
        self.points.hit("ending", "0: all entries answered");
        let left = match room {
            0 => "all used",
            1..=7 => "bytes left over",
            _ => "eight or more left over",
        };
        self.points.hit("answer buffer", left);
    }

    fn see_entry(
        &mut self,
        header: &Header,
        runner: &mut Runner,
        entry: Entry,
        clock: &mut Option<u64>,
        kept: &mut Kept,
    ) {
        self.entries += 1;
        let was = runner.station.watch();
        let state = STATES[usize::from(was.state)];
        let ring = runner.station.inspect_token_ring();
        let (next, ready, laps, size) = (ring.next(), ring.ready_for_ring(), ring.laps(), ring.size());
        lines::take();
        let answer = runner.entry(entry);
        let said = lines::take();
        self.see_next_station(entry, &answer);
        kept.passive.see_entry(&mut self.points, entry, &was, &answer);
        let bytes = match entry {
            _ if answer.refusal != 0 => {
                if let Entry::Poll(bytes) = entry {
                    refusals::see_record(&mut self.points, runner.applications, bytes);
                }
                return self.points.hit("refused entry", format_args!("{} in {}", answer.refusal, state));
            }
            Entry::Online => return self.points.hit("command or transmitting", format_args!("online in {}", state)),
            Entry::Passive => return self.points.hit("command or transmitting", format_args!("passive in {}", state)),
            Entry::Offline => {
                kept.hearing.offline();
                kept.living.offline();
                return self.points.hit("command or transmitting", format_args!("offline in {}", state));
            }
            Entry::Poll(bytes) => bytes,
        };
        let record = PollRecord::decode(runner.applications, bytes).expect("an accepted record");
        kept.hearing.see(&mut self.points, header.address, was.state, &record, &answer);
        let earlier = clock.replace(record.clock);
        let places = [
            earlier.map_or(false, |earlier| record.clock < earlier),
            earlier == Some(record.clock),
            earlier.is_some() && record.clock == 0,
            earlier.is_some() && record.clock == LAST_CLOCK,
        ];
        for (place, _) in CLOCKS.iter().zip(places).filter(|(_, met)| *met) {
            self.points.hit("event", place);
        }
        let poll = Poll {
            parameters: runner.station.parameters(),
            own: header.address,
            was,
            next,
            ready,
            laps,
            size,
            record,
            answer,
            is: runner.station.watch(),
            size_after: runner.station.inspect_token_ring().size(),
        };
        kept.passive.see_poll(&mut self.points, &poll);
        kept.living.see(&mut self.points, &poll, said);
        self.see_poll(header, &poll);
    }

    /// Counts who is next in an answer, by the state that the same answer carries.
    fn see_next_station(&mut self, entry: Entry, answer: &Answer) {
        let answered = match entry {
            _ if answer.refusal != 0 => 4,
            Entry::Poll(_) => 0,
            Entry::Online => 1,
            Entry::Passive => 2,
            Entry::Offline => 3,
        };
        let nobody = answer.next_station == 127;
        let group = if nobody { "answered with nobody" } else { "answered with a station" };
        let state = STATES[usize::from(answer.state)];
        self.points.hit(group, format_args!("{} in {}", ANSWERED[answered], state));
    }

    fn see_poll(&mut self, header: &Header, poll: &Poll) {
        let (was, record, answer) = (&poll.was, &poll.record, &poll.answer);
        let state = STATES[usize::from(was.state)];
        let consumed = usize::from(answer.consumed);
        let [reached, outcome, sent] = if was.passive {
            ["poll while passive", "outcome while passive", "sent while passive"]
        } else {
            ["poll", "outcome", "sent"]
        };
        self.points.hit(reached, format_args!("{} -> {}", state, STATES[usize::from(poll.is.state)]));
        self.points.hit(outcome, format_args!("{}: {}", state, OUTCOMES[usize::from(answer.outcome)]));
        self.points.hit(sent, format_args!("{}: {}", state, SENT[usize::from(answer.sent.kind())]));
        let told = poll.consumed_as_document_01_says();
        if consumed != told {
            let said = format!("{} takes {} telegrams, document 01 says {}", state, consumed, told);
            self.points.hit("poll", said);
        }
        if record.transmitting {
            self.points.hit("command or transmitting", format_args!("transmitting in {}", state));
        }
        if was.offline() {
            return;
        }
        self.points.hit("ring of size", poll.size_after);
        self.see_applications(poll);
        for (question, far) in poll.times() {
            if let Some(shift) = SHIFTS.get((far + 1) as usize) {
                self.points.hit("time", format_args!("{}, code {}, {}", question, header.baud, shift));
            }
        }
        for event in events(poll) {
            self.points.hit("event", event);
        }
        let handled_in = poll.handled_in();
        let hears = STATES[usize::from(handled_in)];
        for (i, telegram) in record.telegrams[..consumed].iter().enumerate() {
            let last = LAST[usize::from(i + 1 == record.telegrams.len())];
            let kind = KINDS[kind_of(telegram, poll.own)];
            self.points.hit("heard", format_args!("{}: {}, {}", hears, kind, last));
        }
        let witnesses = match handled_in {
            LISTEN_TOKEN | ACTIVE_IDLE => Some("token witnessed"),
            PASSIVE_IDLE => Some("token witnessed in PassiveIdle"),
            _ => None,
        };
        if let Some(group) = witnesses {
            poll.witnessed().iter().for_each(|case| self.points.hit(group, WITNESSED[*case]));
        }
        poll.walks_alone().iter().for_each(|case| self.points.hit("gap walk alone", WALKS_ALONE[*case]));
        if let Some((station_type, ok)) = poll.gap_reply() {
            let (kind, ok) = (STATION_TYPES[usize::from(station_type)], OK[usize::from(ok)]);
            self.points.hit("reply to a gap question", format_args!("{}, {}", kind, ok));
            if poll.next == Next::Nobody {
                self.points.hit("reply to a gap question alone", format_args!("{}, {}", kind, ok));
            }
        }
    }

    fn see_applications(&mut self, poll: &Poll) {
        let mut hit = |i: u8, what: usize| self.points.hit("application", format_args!("{} {}", i, APPLICATION[what]));
        if let Sent::Application { application, high, .. } = poll.answer.sent {
            hit(application, 2 * usize::from(high) + usize::from(poll.is.state != AWAIT_DATA_RESPONSE));
            hit(poll.is.next_application as u8, 6);
        }
        match poll.answer.notice {
            Notice::Nothing => {}
            Notice::Reply { application, .. } => hit(application, 4),
            Notice::Timeout { application, .. } => hit(application, 5),
        }
    }

    pub fn points(&self) -> &Points {
        &self.points
    }
}

/// What stands beside the station through a trace: who was heard, and the counts of its life.
#[derive(Default)]
struct Kept {
    hearing: Hearing,
    living: Living,
    passive: Passive,
}

/// How many stations the ring had, as far back as `COMPANY` looks.
#[derive(Default)]
struct Company {
    /// The sizes in their order since the station was last offline, without repetitions.
    sizes: Vec<usize>,
}

impl Company {
    /// What an entry made of it, as numbers of `COMPANY`.
    fn after(&mut self, runner: &Runner) -> Vec<usize> {
        if runner.station.watch().offline() {
            self.sizes.clear();
            return Vec::new();
        }
        let size = runner.station.inspect_token_ring().size();
        if self.sizes.last() == Some(&size) {
            return Vec::new();
        }
        self.sizes.push(size);
        let met = [
            self.sizes.ends_with(&[1, 2]),
            self.sizes.ends_with(&[1, size]) && size > 2,
            self.sizes.ends_with(&[2, 1]),
            self.sizes.ends_with(&[1, 2, 1]),
        ];
        (0..met.len()).filter(|case| met[*case]).collect()
    }
}

/// The place in `KINDS`.
fn kind_of(telegram: &Telegram, own: u8) -> usize {
    let other = |to: u8| usize::from(to != own);
    match *telegram {
        Telegram::ShortConfirmation => 0,
        Telegram::Token { destination, .. } => 1 + other(destination),
        Telegram::Request { destination, status_request: false, .. } => 3 + other(destination),
        Telegram::Request { destination, .. } => 5 + other(destination),
        Telegram::Response { destination, .. } => 7 + other(destination),
    }
}
