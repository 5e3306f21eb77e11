//! A trace with its story: each entry stands beside the answer that documents 01 and 02 and the Rust ask for, and the reason.
//!
//! The answers are statements of their own, written down field by field. Nothing here works out what a station does.

use amsulfezd::answer::{Answer, NextStation, Notice, Outcome, Sent, State};
use amsulfezd::counts::{self, Counts};
use amsulfezd::heard::{self, Heard};
use amsulfezd::record::{Poll, StationType, Telegram};
use amsulfezd::refusal::Refusal;
use amsulfezd::run::{to_text, Run};
use amsulfezd::trace::{Edition, Header, TraceBuilder, HEADER_LENGTH};
use amsulfezd::words::{settings, thousands};

/// The program `replay` reads no more.
const LARGEST: usize = 4096;

/// What an answer says beside the next application and the next station.
#[derive(Clone, Copy)]
pub struct Expected {
    outcome: Outcome,
    state: State,
    sent: Sent,
    consumed: u8,
    notice: Notice,
}

impl Expected {
    fn of(outcome: Outcome, state: State) -> Expected {
        Expected {
            outcome,
            state,
            sent: Sent::Nothing,
            consumed: 0,
            notice: Notice::Nothing,
        }
    }

    /// The same, with this many telegrams consumed.
    pub fn consumed(mut self, count: u8) -> Expected {
        self.consumed = count;
        self
    }

    /// The same, with an application told of its reply.
    pub fn reply(mut self, application: u8, address: u8) -> Expected {
        self.notice = Notice::Reply {
            application,
            address,
        };
        self
    }

    /// The same, with an application told that no reply came.
    pub fn timeout(mut self, application: u8, address: u8) -> Expected {
        self.notice = Notice::Timeout {
            application,
            address,
        };
        self
    }
}

/// The poll of a station that is offline.
pub fn stays_offline() -> Expected {
    Expected::of(Outcome::Offline, State::Offline)
}

/// A transmission is found going on.
pub fn transmission(state: State) -> Expected {
    Expected::of(Outcome::Transmission, state)
}

/// The poll ends waiting for the bus.
pub fn bus(state: State) -> Expected {
    Expected::of(Outcome::Bus, state)
}

/// The poll ends waiting for a delay.
pub fn delay(state: State) -> Expected {
    Expected::of(Outcome::Delay, state)
}

/// A send: the outcome is transmission.
fn sends(state: State, sent: Sent) -> Expected {
    Expected {
        sent,
        ..Expected::of(Outcome::Transmission, state)
    }
}

/// The token is sent.
pub fn sends_token(state: State, to: u8) -> Expected {
    sends(state, Sent::Token { to })
}

/// A status request is sent.
pub fn sends_status_request(to: u8) -> Expected {
    sends(State::AwaitStatusResponse, Sent::StatusRequest { to })
}

/// A status response is sent.
pub fn sends_status_response(state: State, to: u8, station_type: StationType) -> Expected {
    sends(state, Sent::StatusResponse { to, station_type })
}

/// An application's telegram is sent at normal priority, and its reply is awaited.
pub fn sends_request(application: u8, reply_from: u8, length: u8) -> Expected {
    sends(
        State::AwaitDataResponse,
        Sent::Application {
            application,
            high: false,
            reply_from,
            length,
        },
    )
}

/// An application's telegram without reply is sent.
pub fn sends_data(application: u8, high: bool, length: u8) -> Expected {
    sends(
        State::UseToken,
        Sent::Application {
            application,
            high,
            reply_from: 0,
            length,
        },
    )
}

/// A poll that reports these telegrams and their bytes: a token has 3, a short confirmation 1, all others 6 or more.
pub fn heard(clock: u64, telegrams: &[Telegram]) -> Poll {
    let mut poll = Poll::at(clock);
    for &telegram in telegrams {
        let length = match telegram {
            Telegram::Token { .. } => 3,
            Telegram::ShortConfirmation => 1,
            _ => 6,
        };
        let pending = poll.pending + length;
        poll = poll.telegram(telegram).pending(pending);
    }
    poll
}

/// What a story says of the counts.
pub enum Stated {
    Counts(Counts, &'static str),
    /// There are none: the header is refused.
    Nothing,
}

/// A trace with its story.
pub struct Story {
    /// The files' name below `traces/`, without ending.
    pub name: &'static str,
    title: &'static str,
    tale: &'static str,
    header: Header,
    /// The header's fields in edition 2, each as its bits, stated by hand; none in edition 1.
    bits: Option<[&'static str; 13]>,
    trace: TraceBuilder,
    answers: Vec<Answer>,
    lines: Vec<String>,
    /// What happened beside the bus: the clock, and words.
    notes: Vec<(u64, &'static str)>,
    /// Every address that was heard, in their order, with its entry and why it is so; empty where the story does not say.
    heard: Vec<(u8, Heard, &'static str)>,
    /// The counts of the station's life, and why they are so; none where the story does not say.
    pub counts: Option<Stated>,
    /// Bytes left out at the end, and the refusal that ends the run.
    cut: usize,
    ending: Option<Refusal>,
    state: State,
    next_application: u8,
    next_station: NextStation,
}

impl Story {
    /// A story without entries. A fresh station is alone.
    pub fn new(
        name: &'static str,
        header: Header,
        title: &'static str,
        tale: &'static str,
    ) -> Story {
        Story {
            name,
            title,
            tale,
            header,
            bits: None,
            trace: TraceBuilder::new(header),
            answers: Vec::new(),
            lines: Vec::new(),
            notes: Vec::new(),
            heard: Vec::new(),
            counts: None,
            cut: 0,
            ending: None,
            state: State::Offline,
            next_application: 0,
            next_station: NextStation::Nobody,
        }
    }

    /// The story with its header in edition 2, whose fields are these bits: 82h, address, baud code, slot, rotation, gap wait,
    /// HSA, retry, min Tsdr, applications less one, the two factors, zero.
    pub fn edition_2(mut self, bits: [&'static str; 13]) -> Story {
        let widths = bits.map(str::len);
        assert_eq!(widths, [8, 7, 4, 16, 25, 7, 7, 4, 8, 3, 8, 8, 7]);
        assert_eq!(
            Header::from_bytes(&bytes_of(&bits.concat())),
            Some(self.header),
            "{}: the bits do not say what the words say",
            self.name
        );
        self.bits = Some(bits);
        self
    }

    /// The same entries and answers under another name, without notes.
    pub fn retold(mut self, name: &'static str, title: &'static str, tale: &'static str) -> Story {
        self.name = name;
        self.title = title;
        self.tale = tale;
        self.notes.clear();
        self.heard.clear();
        self.counts = None;
        self
    }

    /// From the next entry on, answers carry this next station.
    pub fn next_station(&mut self, address: u8) {
        self.next_station = NextStation::Station(address);
    }

    /// From the next entry on, answers say that there is no next station.
    pub fn alone(&mut self) {
        self.next_station = NextStation::Nobody;
    }

    /// From the next entry on, answers carry this next application.
    pub fn next_application(&mut self, application: u8) {
        self.next_application = application;
    }

    /// Something that happened beside the bus, which no entry tells.
    pub fn note(&mut self, clock: u64, words: &'static str) {
        self.notes.push((clock, words));
    }

    /// When an address was heard. A story that states one states all: no other address was heard.
    pub fn heard(
        &mut self,
        address: u8,
        times: u32,
        (first, last): (u64, u64),
        station_type: Option<StationType>,
        why: &'static str,
    ) {
        let entry = Heard {
            times,
            first,
            last,
            station_type,
        };
        self.heard.push((address, entry, why));
    }

    /// The counts of the station's life: claims, removals, meetings of its own address.
    pub fn counts(&mut self, claims: u32, removals: u32, meetings: u32, why: &'static str) {
        let counts = Counts {
            claims,
            removals,
            meetings,
        };
        self.counts = Some(Stated::Counts(counts, why));
    }

    /// The station is put online: the state stays as it is until the next poll.
    pub fn online(&mut self, why: &str) {
        self.trace.online();
        self.answered("online", None, Expected::of(Outcome::None, self.state), why);
    }

    /// The station is taken offline: it is fresh.
    pub fn offline(&mut self, why: &str) {
        self.trace.offline();
        self.fresh();
        self.answered(
            "offline",
            None,
            Expected::of(Outcome::None, State::Offline),
            why,
        );
    }

    /// From the next entry on, answers carry a fresh station's next application and next station.
    pub fn fresh(&mut self) {
        self.next_application = 0;
        self.alone();
    }

    /// The station is told to be passive: the state stays as it is until the next poll.
    pub fn passive(&mut self, why: &str) {
        self.trace.passive();
        let expected = Expected::of(Outcome::None, self.state);
        self.answered("passive", None, expected, why);
    }

    /// A poll and the answer to it.
    pub fn poll(&mut self, poll: Poll, expected: Expected, why: &str) {
        self.trace
            .poll(&poll)
            .unwrap_or_else(|unfit| panic!("{}: {}", self.name, unfit));
        self.answered(
            &format!("{} us", thousands(poll.clock)),
            None,
            expected,
            why,
        );
    }

    /// A record that is refused.
    pub fn bad_record(&mut self, record: &[u8], refusal: Refusal, why: &str) {
        self.record(record);
        self.refused("bad record", refusal, why);
    }

    fn record(&mut self, record: &[u8]) {
        self.trace
            .record(record)
            .unwrap_or_else(|unfit| panic!("{}: {}", self.name, unfit));
    }

    /// The header is refused with this number. The entry that follows, online, is not answered.
    pub fn header_refused(&mut self, refusal: Refusal) {
        self.trace.online();
        self.ending = Some(refusal);
    }

    /// The last bytes of this record are missing, so that the trace ends inside an entry that gets no answer.
    pub fn cut(&mut self, record: &[u8], missing: usize, why: &str) {
        self.record(record);
        self.lines.push(format!(
            "  -  {}\n     no answer: the trace ends with 17",
            why
        ));
        self.cut_bytes(missing);
    }

    /// The last bytes of the trace are missing.
    pub fn cut_bytes(&mut self, missing: usize) {
        self.cut = missing;
        self.ending = Some(Refusal::Cut);
    }

    /// A refused entry: number, state, next application and next station, and nothing else.
    fn refused(&mut self, what: &str, refusal: Refusal, why: &str) {
        self.answered(
            what,
            Some(refusal),
            Expected::of(Outcome::None, self.state),
            why,
        );
    }

    fn answered(&mut self, what: &str, refusal: Option<Refusal>, expected: Expected, why: &str) {
        let answer = Answer {
            refusal,
            outcome: expected.outcome,
            state: expected.state,
            sent: expected.sent,
            consumed: expected.consumed,
            notice: expected.notice,
            next_application: self.next_application,
            next_station: self.next_station,
        };
        self.state = expected.state;
        self.answers.push(answer);
        self.lines.push(format!(
            "{:3}  {}: {}\n     {}",
            self.answers.len(),
            what,
            why,
            fields(&answer)
        ));
    }

    /// The bytes of the trace.
    pub fn trace(&self) -> Vec<u8> {
        let mut bytes = self.trace.clone().into_bytes();
        if let Some(bits) = self.bits {
            bytes.splice(..HEADER_LENGTH, bytes_of(&bits.concat()));
        }
        bytes.truncate(bytes.len() - self.cut);
        assert!(bytes.len() <= LARGEST, "{} is too long", self.name);
        bytes
    }

    /// The text that `replay` is to print.
    pub fn answers(&self) -> String {
        to_text(&self.answers, &self.run())
    }

    /// How the run ends.
    fn run(&self) -> Run {
        Run {
            entries: self.answers.len() as u64,
            ending: self.ending,
        }
    }

    /// The text that `counts_file` is to print; empty where the story does not state the counts.
    pub fn counts_text(&self) -> String {
        match self.counts {
            None => String::new(),
            Some(Stated::Counts(counts, _)) => counts::to_text(Some(counts), &self.run()),
            Some(Stated::Nothing) => counts::to_text(None, &self.run()),
        }
    }

    /// The notes beside the trace, a line for each; empty if there are none.
    pub fn notes(&self) -> String {
        let notes = self.notes.iter();
        notes
            .map(|(clock, words)| format!("{} {}\n", clock, words))
            .collect()
    }

    /// The text that `heard_file` is to print; empty where the story does not say who was heard.
    pub fn heard_text(&self) -> String {
        if self.heard.is_empty() {
            return String::new();
        }
        let entries: Vec<(u8, Heard)> =
            self.heard.iter().map(|&(a, entry, _)| (a, entry)).collect();
        heard::to_text(&entries, &self.run())
    }

    /// The story in words.
    pub fn text(&self) -> String {
        let mut text = format!("{}\n\n{}\n\n", self.title, self.tale.trim());
        let edition = match self.bits {
            Some(_) => Edition::Second,
            None => Edition::First,
        };
        text.push_str(&format!("{}.\n\n", settings(&self.header, edition)));
        if let Some(bits) = self.bits {
            text.push_str(&working(&bits));
        }
        if !self.lines.is_empty() {
            text.push_str(
                "Entry by entry: what happens, why, and the answer that the documents and the Rust ask for. The first word\n\
                 of an answer is its outcome, the second the state after the entry; fields that are zero are left out.\n\n",
            );
        }
        for line in &self.lines {
            text.push_str(line);
            text.push('\n');
        }
        if !self.lines.is_empty() {
            text.push('\n');
        }
        text.push_str(&format!(
            "The run ends with {} entries answered and ending number {}.\n",
            self.answers.len(),
            match self.ending {
                Some(refusal) => refusal.to_string(),
                None => "0 (the trace was read to its end)".to_string(),
            }
        ));
        if let Some(Stated::Counts(counts, why)) = &self.counts {
            text.push_str(&format!(
                "Counts: claims {}, removals {}, meetings of our own address {}\n     {}\n",
                counts.claims, counts.removals, counts.meetings, why
            ));
        }
        if !self.heard.is_empty() {
            text.push_str("\nWho was heard, and when; no other address was.\n\n");
        }
        for (address, entry, why) in &self.heard {
            let kind = match entry.station_type {
                Some(kind) => format!("last response \"{}\"", kind),
                None => "no response seen".to_string(),
            };
            text.push_str(&format!(
                "{:3}  times {}, first {} us, last {} us, {}\n     {}\n",
                address,
                entry.times,
                thousands(entry.first),
                thousands(entry.last),
                kind,
                why
            ));
        }
        text
    }
}

/// The bytes of these bits, eight by eight.
fn bytes_of(bits: &str) -> Vec<u8> {
    let value = |byte: &[u8]| byte.iter().fold(0, |value, bit| 2 * value + (bit - b'0'));
    bits.as_bytes().chunks(8).map(value).collect()
}

/// A header of edition 2, worked out: its fields' bits one after the other, and the same bits eight by eight.
fn working(bits: &[&'static str; 13]) -> String {
    let fields = [
        "82h",
        "address",
        "baud code",
        "slot",
        "rotation",
        "gap wait",
        "HSA",
        "retry",
        "min Tsdr",
        "applications less one",
        "watchdog factor 1",
        "watchdog factor 2",
        "zero",
    ];
    let mut text = "The header's 14 bytes, from its fields' bits:\n\n".to_string();
    for (bits, field) in bits.iter().zip(fields) {
        text.push_str(&format!("  {:25}  {}\n", bits, field));
    }
    text.push_str("\nEight by eight:\n\n");
    let all = bits.concat();
    for (eight, byte) in all.as_bytes().chunks(8).zip(bytes_of(&all)) {
        let eight = std::str::from_utf8(eight).expect("digits");
        text.push_str(&format!("  {}  {:02x}\n", eight, byte));
    }
    text.push('\n');
    text
}

/// An answer's fields by their names; those that are zero are left out, but for next application and next station.
fn fields(answer: &Answer) -> String {
    let mut parts = Vec::new();
    if let Some(refusal) = answer.refusal {
        parts.push(format!("refused with {}", refusal));
    }
    parts.push(format!("{:?} {:?}", answer.outcome, answer.state));
    match answer.sent {
        Sent::Nothing => (),
        Sent::Token { to } => parts.push(format!("sent token to {} (3 bytes)", to)),
        Sent::StatusRequest { to } => {
            parts.push(format!("sent status request to {} (6 bytes)", to))
        }
        Sent::StatusResponse { to, station_type } => parts.push(format!(
            "sent status response \"{}\" to {} (6 bytes)",
            station_type, to
        )),
        Sent::Application {
            application,
            high,
            reply_from,
            length,
        } => parts.push(format!(
            "sent application {}'s telegram ({} bytes{}, reply address {})",
            application,
            length,
            if high { ", high priority" } else { "" },
            reply_from
        )),
    }
    if answer.consumed != 0 {
        parts.push(format!("consumed {}", answer.consumed));
    }
    match answer.notice {
        Notice::Nothing => (),
        Notice::Reply {
            application,
            address,
        } => parts.push(format!(
            "notice: reply, application {}, {}",
            application, address
        )),
        Notice::Timeout {
            application,
            address,
        } => parts.push(format!(
            "notice: timeout, application {}, {}",
            application, address
        )),
    }
    parts.push(format!("next application {}", answer.next_application));
    parts.push(match answer.next_station {
        NextStation::Nobody => "alone".to_string(),
        NextStation::Station(address) => format!("next station {}", address),
    });
    format!("{:016x}  {}", u64::from(*answer), parts.join(", "))
}
