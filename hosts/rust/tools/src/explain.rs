//! One line in words for each entry of a trace, made from the trace and the answers that the proved program or library
//! gave. Nothing is worked out anew: the state before an entry is the one that the answer before it carries.

use crate::counts::sentence;
use crate::view::{Note, View};
use amsulfezd::answer::{Answer, NextStation, Notice, Outcome, Sent, State};
use amsulfezd::record::{Poll, Telegram};
use amsulfezd::refusal::Refusal;
use amsulfezd::run::Run;
use amsulfezd::trace::{entries, Edition, Entry, Header};
use amsulfezd::words::counted;
use amsulfezd::words::settings;
pub use amsulfezd::words::thousands;
use std::fmt;

/// Explains a run: the settings, a line for each entry that is shown, how it ended, and the counts.
pub fn explain(
    trace: &[u8],
    answers: &[Answer],
    run: &Run,
    view: &View,
) -> Result<String, NotThisTrace> {
    let explained = Explanation::of(trace, answers, run)?;
    let range = match &view.range {
        Some(range) => format!("{}\n", range),
        None => String::new(),
    };
    let heading = match &explained.settings {
        Some(settings) => format!("{}\n{}\n", settings, range),
        None => String::new(),
    };
    let counts = match &view.counts {
        Some(counts) => format!("{}\n", sentence(counts)),
        None => String::new(),
    };
    Ok(format!(
        "{}{}{}\n{}",
        heading,
        table(&explained.lines, view),
        explained.ending,
        counts
    ))
}

/// A run in words.
#[derive(Debug, Clone)]
pub struct Explanation<'a> {
    /// None if the trace ends inside it.
    pub header: Option<Header>,
    /// The header in words.
    pub settings: Option<String>,
    /// For each entry that was answered.
    pub lines: Vec<Line<'a>>,
    /// How the run ended.
    pub ending: String,
}

impl<'a> Explanation<'a> {
    /// The words for a trace and its answers.
    pub fn of(
        trace: &'a [u8],
        answers: &[Answer],
        run: &Run,
    ) -> Result<Explanation<'a>, NotThisTrace> {
        let header = Header::from_bytes(trace);
        let lines = match &header {
            Some(header) => lines(trace, header, answers)?,
            None => Vec::new(),
        };
        check_ending(trace, answers, run)?;
        let edition = Edition::of(trace);
        Ok(Explanation {
            header,
            settings: header.map(|header| settings(&header, edition)),
            lines,
            ending: ending(run, trace),
        })
    }
}

/// What does not happen in a quiet ring, as far as an answer tells it.
#[derive(Debug, Clone, Copy, PartialEq, Eq)]
pub enum Alarm {
    /// The next station took none of three tokens: it is out of the ring.
    Left(u8),
    /// The token is lost, and our station claims it.
    Claim,
    /// Our own address was heard twice: our station goes offline, ..
    Offline,
    /// .. or leaves the ring and listens.
    Listens,
}

/// An entry with its answer, and the words for both.
#[derive(Debug, Clone)]
pub struct Line<'a> {
    /// Counted from 1.
    pub number: usize,
    pub entry: Entry<'a>,
    /// What a poll record says, if it has a poll record's length. A refused record's is not what the station took in.
    pub poll: Option<Poll>,
    /// The state before the entry.
    pub before: State,
    pub answer: Answer,
    /// The clock of a poll record, refused or not.
    pub clock: Option<u64>,
    /// What came: a command, or what the port reported.
    pub came: String,
    /// What the station did, and why.
    pub did: String,
    pub alarm: Option<Alarm>,
}

impl Line<'_> {
    /// The clock of a poll that was accepted.
    pub fn accepted_clock(&self) -> Option<u64> {
        self.clock.filter(|_| self.answer.refusal.is_none())
    }

    /// The clock in words; nothing where there is none.
    pub fn clock_words(&self) -> String {
        self.clock
            .map_or(String::new(), |clock| format!("{} us", thousands(clock)))
    }

    /// The state, or the two states between which the entry led.
    pub fn state_words(&self) -> String {
        if self.before == self.answer.state {
            format!("{:?}", self.answer.state)
        } else {
            format!("{:?} → {:?}", self.before, self.answer.state)
        }
    }
}

/// Before which line a note stands: that of the first accepted poll which is not earlier. After the last one if there
/// is none.
pub fn place_of(note: &Note, lines: &[Line]) -> usize {
    let not_earlier = |line: &Line| line.accepted_clock() >= Some(note.clock);
    lines.iter().position(not_earlier).unwrap_or(lines.len())
}

/// The answers given are not those of the trace given.
#[derive(Debug, Clone, PartialEq, Eq)]
pub struct NotThisTrace(String);

impl fmt::Display for NotThisTrace {
    fn fmt(&self, f: &mut fmt::Formatter) -> fmt::Result {
        write!(f, "the answers are not this trace's: {}", self.0)
    }
}

impl std::error::Error for NotThisTrace {}

/// What was known before an entry.
struct Before {
    state: State,
    /// Whether the last command was passive, and was accepted.
    passive: bool,
    next_application: u8,
    next_station: NextStation,
}

/// A line for each answer.
fn lines<'a>(
    trace: &'a [u8],
    header: &Header,
    answers: &[Answer],
) -> Result<Vec<Line<'a>>, NotThisTrace> {
    let mut before = Before {
        state: State::Offline,
        passive: false,
        next_application: 0,
        next_station: NextStation::Nobody,
    };
    let mut lines = Vec::new();
    for (index, (entry, answer)) in entries(trace).zip(answers).enumerate() {
        let number = index + 1;
        let line = line(number, entry, header, &before, answer)
            .ok_or_else(|| NotThisTrace(format!("entry {} has another form", number)))?;
        lines.push(line);
        before = Before {
            state: answer.state,
            passive: match entry {
                Entry::Online | Entry::Offline => false,
                Entry::Passive => before.passive || answer.refusal.is_none(),
                Entry::Poll(_) | Entry::Cut(_) => before.passive,
            },
            next_application: answer.next_application,
            next_station: answer.next_station,
        };
    }
    Ok(lines)
}

/// The line of one entry; none if the answer cannot be this entry's.
fn line<'a>(
    number: usize,
    entry: Entry<'a>,
    header: &Header,
    before: &Before,
    answer: &Answer,
) -> Option<Line<'a>> {
    let record = match entry {
        Entry::Poll(record) => record,
        _ => &[],
    };
    let poll = Poll::from_bytes(record, usize::from(header.applications));
    let (came, did) = match entry {
        Entry::Cut(_) => return None,
        Entry::Online => ("command: online".to_string(), online(before, answer)),
        Entry::Offline => (
            "command: offline".to_string(),
            "is offline: a fresh station".to_string(),
        ),
        Entry::Passive => {
            let did = match answer.refusal {
                Some(refusal) => refused(refusal),
                None => passive(before, answer),
            };
            ("command: passive".to_string(), did)
        }
        Entry::Poll(_) => match answer.refusal {
            Some(refusal) => (
                format!("record of {}", counted(record.len(), "byte")),
                refused(refusal),
            ),
            None => {
                let poll = poll.as_ref()?;
                (came(poll), did(header.address, before, poll, answer))
            }
        },
    };
    Some(Line {
        number,
        entry,
        poll,
        before: before.state,
        answer: *answer,
        clock: Poll::clock_of(record),
        came,
        did: did + &changes(before, answer),
        alarm: alarm(before, answer),
    })
}

/// What an answer tells that does not happen in a quiet ring. A token that goes out while the pass before is checked
/// says that the slot time is over; with another next station, it was the third.
fn alarm(before: &Before, answer: &Answer) -> Option<Alarm> {
    let sent_token = matches!(answer.sent, Sent::Token { .. });
    match (before.state, answer.state) {
        (_, State::ClaimToken) if sent_token => Some(Alarm::Claim),
        (State::CheckTokenPass, _) if sent_token && answer.next_station != before.next_station => {
            match before.next_station {
                NextStation::Station(left) => Some(Alarm::Left(left)),
                NextStation::Nobody => None,
            }
        }
        (_, State::Offline) if answer.outcome == Outcome::Bus => Some(Alarm::Offline),
        (State::ActiveIdle, State::ListenToken) | (State::CheckTokenPass, State::ListenToken)
            if answer.outcome == Outcome::Bus =>
        {
            Some(Alarm::Listens)
        }
        _ => None,
    }
}

/// The lines that are shown with their parts in columns, and the notes between them.
fn table(all: &[Line], view: &View) -> String {
    let shown = view.shown(all.len());
    let lines = &all[shown.clone()];
    /// A longer text than this is not waited for.
    const WIDEST: usize = 52;
    let width = |of: fn(&Line) -> String| {
        let lengths = lines.iter().map(|line| of(line).chars().count());
        lengths
            .filter(|&length| length <= WIDEST)
            .max()
            .unwrap_or(0)
    };
    let clock = width(|line| line.clock_words());
    let came = width(|line| line.came.clone());
    let state = width(|line| line.state_words());
    let places: Vec<usize> = view.notes.iter().map(|note| place_of(note, all)).collect();
    let notes_before = |place: usize| -> String {
        let here = places
            .iter()
            .zip(&view.notes)
            .filter(|(&at, _)| at == place);
        here.map(|(_, note)| {
            let at = format!("{} us", thousands(note.clock));
            format!("   *  {:>clock$}  {}\n", at, note.words, clock = clock)
        })
        .collect()
    };
    let mut text = String::new();
    for (place, line) in shown.clone().zip(lines) {
        text.push_str(&notes_before(place));
        text.push_str(&format!(
            "{:4}  {:>clock$}  {:came$}  {:state$}  {}\n",
            line.number,
            line.clock_words(),
            line.came,
            line.state_words(),
            line.did,
            clock = clock,
            came = came,
            state = state
        ));
    }
    if shown.end == all.len() {
        text.push_str(&notes_before(all.len()));
    }
    if !text.is_empty() {
        text.push('\n');
    }
    text
}

/// What the port reported.
fn came(poll: &Poll) -> String {
    let mut parts: Vec<String> = poll.telegrams.iter().map(telegram_words).collect();
    if poll.pending != 0 {
        parts.push(format!(
            "{} pending",
            counted(usize::from(poll.pending), "byte")
        ));
    }
    if poll.transmitting {
        parts.push("port is transmitting".to_string());
    }
    if parts.is_empty() {
        parts.push("nothing came".to_string());
    }
    parts.join(", ")
}

/// A telegram in words.
pub fn telegram_words(telegram: &Telegram) -> String {
    match *telegram {
        Telegram::Token {
            source,
            destination,
        } => format!("token {}→{}", source, destination),
        Telegram::ShortConfirmation => "short confirmation".to_string(),
        Telegram::Request {
            source,
            destination,
            status_request,
        } => {
            let kind = if status_request {
                "status request"
            } else {
                "request"
            };
            format!("{} {}→{}", kind, source, destination)
        }
        Telegram::Response {
            source,
            destination,
            station_type,
            status,
        } => {
            let status = match status {
                0 => "Ok".to_string(),
                number => format!("status {}", number),
            };
            format!(
                "response {}→{} ({}, {})",
                source, destination, station_type, status
            )
        }
    }
}

/// What online did.
fn online(before: &Before, answer: &Answer) -> String {
    match answer.state {
        State::Offline => "is online from now on; it moves with the next poll",
        State::PassiveIdle if before.passive => {
            "is online from now on; it moves with the next poll"
        }
        _ if before.passive => "is online again, and stays as it is",
        _ => "nothing: it is online already",
    }
    .to_string()
}

/// What passive did.
fn passive(before: &Before, answer: &Answer) -> String {
    match answer.state {
        _ if before.passive => "nothing: it is passive already",
        State::Offline | State::ListenToken | State::ActiveIdle => {
            "is passive from now on; it moves with the next poll"
        }
        State::PassiveIdle => "is passive again, and stays as it is",
        _ => "is passive from now on; it goes on until it listens or is idle in the ring",
    }
    .to_string()
}

/// A refusal of an entry with its meaning.
fn refused(refusal: Refusal) -> String {
    let rule = match refusal.rule() {
        Some(rule) => format!(": {}", rule),
        None => String::new(),
    };
    format!("refused with {}{}; nothing changes", refusal, rule)
}

/// What an accepted poll led to: what an application was told, what was sent, and why.
fn did(own: u8, before: &Before, poll: &Poll, answer: &Answer) -> String {
    let mut text = match answer.notice {
        Notice::Nothing => String::new(),
        Notice::Reply {
            application,
            address,
        } => format!(
            "application {} got its reply from {}; ",
            application, address
        ),
        Notice::Timeout {
            application,
            address,
        } => format!(
            "application {} timed out waiting for {}; ",
            application, address
        ),
    };
    if before.state != State::PassiveIdle && answer.state == State::PassiveIdle {
        text.push_str("is passive now; ");
    }
    text.push_str(&match answer.sent {
        Sent::Nothing => waited(own, before, poll, answer),
        Sent::Token { to } => sent_token(own, before, answer, to),
        Sent::StatusRequest { to } => format!(
            "gap poll: sent a status request to address {} (6 bytes)",
            to
        ),
        Sent::StatusResponse { to, station_type } => format!(
            "answered the status request of {}: \"{}\" (6 bytes){}",
            to,
            station_type,
            match (before.state, answer.state) {
                (State::ListenToken, State::ActiveIdle) => "; takes part in the ring from now on",
                (State::ListenToken, _) => "; goes on listening",
                _ => "",
            }
        ),
        Sent::Application {
            application,
            high,
            reply_from,
            length,
        } => format!(
            "sent {}; {}",
            application_words(application, high, length),
            if answer.state == State::AwaitDataResponse {
                format!("waits for the reply of {}", reply_from)
            } else {
                "no reply is expected".to_string()
            }
        ),
    });
    let unread = poll.telegrams.len() - usize::from(answer.consumed).min(poll.telegrams.len());
    if unread != 0 {
        text.push_str(&format!("; {} not looked at", counted(unread, "telegram")));
    }
    text
}

/// An application's telegram in words.
pub fn application_words(application: u8, high: bool, length: u8) -> String {
    format!(
        "application {}'s telegram ({}{})",
        application,
        counted(usize::from(length), "byte"),
        if high { ", high priority" } else { "" }
    )
}

/// Why and to whom the token was sent.
fn sent_token(own: u8, before: &Before, answer: &Answer, to: u8) -> String {
    let to_whom = if to == own {
        "to itself (3 bytes)".to_string()
    } else {
        format!("to {} (3 bytes)", to)
    };
    let holds = if answer.state == State::UseToken {
        " and holds it"
    } else {
        ""
    };
    match (before.state, alarm(before, answer)) {
        (_, Some(Alarm::Claim)) => format!(
            "no activity for the lost-token time: claims the token, sent it {}",
            to_whom
        ),
        (_, Some(Alarm::Left(station))) => format!(
            "no sign of life from {} after three tokens, it is out of the ring: sent the token {}{}",
            station, to_whom, holds
        ),
        (State::ClaimToken, _) => {
            format!("claims the token a second time, sent it {}{}", to_whom, holds)
        }
        (State::CheckTokenPass, _) => format!(
            "no sign of life from {} within the slot time: sent the token again {}",
            to, to_whom
        ),
        (State::AwaitStatusResponse, _) => format!(
            "no answer to the gap poll within the slot time: sent the token {}{}",
            to_whom, holds
        ),
        _ => format!("sent the token {}{}", to_whom, holds),
    }
}

/// Why a poll sent nothing.
fn waited(own: u8, before: &Before, poll: &Poll, answer: &Answer) -> String {
    match answer.outcome {
        Outcome::None => "nothing".to_string(),
        Outcome::Offline => "is offline and does nothing".to_string(),
        Outcome::Transmission if poll.transmitting => {
            "a transmission is going on, as the port reports: waits".to_string()
        }
        Outcome::Transmission => {
            "the clock is not past the last activity, which counts as a transmission going on: waits"
                .to_string()
        }
        Outcome::Bus => waited_for_bus(own, before, poll, answer),
        Outcome::Delay => waited_for_delay(before, poll, answer),
    }
}

/// Outcome 3: nothing can be done before something happens on the bus.
fn waited_for_bus(own: u8, before: &Before, poll: &Poll, answer: &Answer) -> String {
    match alarm(before, answer) {
        Some(Alarm::Offline) => "second telegram from its own address: goes offline".to_string(),
        Some(Alarm::Listens) => {
            "second token in a row from its own address: leaves the ring and listens".to_string()
        }
        _ => waited_in_quiet(own, before, poll, answer),
    }
}

/// Outcome 3, and our own address was not heard twice.
fn waited_in_quiet(own: u8, before: &Before, poll: &Poll, answer: &Answer) -> String {
    match (before.state, answer.state) {
        (State::AwaitDataResponse, State::ActiveIdle) => {
            "not the reply that it waits for: gives the token up".to_string()
        }
        (State::AwaitStatusResponse, State::ActiveIdle) => {
            "not the status response that it waits for: gives the token up".to_string()
        }
        (State::CheckTokenPass, State::ActiveIdle) => {
            let next = before.next_station;
            let heard = match poll.telegrams.first().and_then(Telegram::source) {
                Some(source) if NextStation::Station(source) == next => {
                    format!("{} is heard: it has the token", next)
                }
                Some(source) => format!(
                    "not {} but {} is heard: the token pass is over",
                    next, source
                ),
                None => "somebody is heard: the token pass is over".to_string(),
            };
            format!("{}{}", heard, not_taken(own, poll, answer.state))
        }
        (State::AwaitDataResponse, _) => "waits for the reply".to_string(),
        (State::AwaitStatusResponse, _) => "waits for the status response".to_string(),
        (State::CheckTokenPass, _) => {
            format!("waits for a sign of life from {}", before.next_station)
        }
        _ if answer.consumed == 0 => "listens".to_string(),
        (_, after) => format!(
            "takes note{}{}",
            own_address(own, poll, after),
            not_taken(own, poll, after)
        ),
    }
}

/// Says so if the sender of a telegram has our own address: of any in ListenToken and PassiveIdle, of a token in ActiveIdle.
fn own_address(own: u8, poll: &Poll, state: State) -> &'static str {
    let counts = |telegram: &&Telegram| {
        matches!(state, State::ListenToken | State::PassiveIdle)
            || matches!(telegram, Telegram::Token { .. })
    };
    let mut counted = poll.telegrams.iter().filter(counts);
    if counted.any(|telegram| telegram.source() == Some(own)) {
        ": another station has its own address"
    } else {
        ""
    }
}

/// Says so if the last telegram passes the token to us; it is asked only where the answer says that it was not taken.
fn not_taken(own: u8, poll: &Poll, state: State) -> String {
    let why = match state {
        State::ListenToken => "as it only listens",
        State::PassiveIdle => "as it is passive",
        _ => "which is not the station before it",
    };
    match poll.telegrams.last() {
        Some(&Telegram::Token {
            source,
            destination,
        }) if destination == own && source != own => {
            format!("; does not take the token from {}, {}", source, why)
        }
        _ => String::new(),
    }
}

/// Outcome 4: the station goes on by itself after a delay.
fn waited_for_delay(before: &Before, poll: &Poll, answer: &Answer) -> String {
    let sender = match poll.telegrams.last().and_then(Telegram::source) {
        Some(address) => address.to_string(),
        None => "an unknown station".to_string(),
    };
    match (before.state, answer.state) {
        (State::AwaitDataResponse, State::UseToken) => "still holds the token".to_string(),
        (_, State::UseToken) if answer.consumed != 0 => format!("takes the token from {}", sender),
        (State::AwaitStatusResponse, State::PassToken) => {
            "the gap poll is answered: will pass the token on".to_string()
        }
        (State::UseToken, State::PassToken) | (State::AwaitDataResponse, State::PassToken) => {
            "no application sends: will pass the token on".to_string()
        }
        _ if answer.consumed != 0 => {
            format!(
                "notes the status request of {}, answers after the pause",
                sender
            )
        }
        _ => "waits for the pause before sending".to_string(),
    }
}

/// What else an entry changed.
fn changes(before: &Before, answer: &Answer) -> String {
    let mut text = String::new();
    if answer.next_station != before.next_station {
        text.push_str(&match answer.next_station {
            NextStation::Nobody => "; is alone now".to_string(),
            NextStation::Station(address) => format!("; next station is now {}", address),
        });
    }
    if answer.next_application != before.next_application {
        text.push_str(&format!(
            "; next application is now {}",
            answer.next_application
        ));
    }
    text
}

/// How many entries a trace has to its end, and whether its last one is cut short.
fn whole_entries(trace: &[u8]) -> (usize, bool) {
    let whole = entries(trace).filter(|entry| !matches!(entry, Entry::Cut(_)));
    let cut = entries(trace).any(|entry| matches!(entry, Entry::Cut(_)));
    (whole.count(), cut)
}

/// That the number of answers and the ending belong to the trace.
fn check_ending(trace: &[u8], answers: &[Answer], run: &Run) -> Result<(), NotThisTrace> {
    check_entries(trace, answers.len(), run)
}

/// That a run's entries and its ending belong to the trace.
pub(crate) fn check_run(trace: &[u8], run: &Run) -> Result<(), NotThisTrace> {
    check_entries(trace, run.entries as usize, run)
}

fn check_entries(trace: &[u8], answered: usize, run: &Run) -> Result<(), NotThisTrace> {
    let (whole, cut) = whole_entries(trace);
    let all = answered == whole;
    let fits = match run.ending {
        None => all && !cut && Header::from_bytes(trace).is_some(),
        Some(Refusal::Cut) => all && (cut || Header::from_bytes(trace).is_none()),
        Some(Refusal::NoRoom) => answered < whole,
        Some(_) => answered == 0,
    };
    if fits {
        Ok(())
    } else {
        Err(NotThisTrace(format!(
            "entries answered: {}, ending number {}; whole entries in the trace: {}, one cut short: {}",
            answered,
            run.ending_number(),
            whole,
            if cut { "yes" } else { "no" }
        )))
    }
}

/// How the run ended, in words.
pub(crate) fn ending(run: &Run, trace: &[u8]) -> String {
    let number = run.ending_number();
    match run.ending {
        None => format!(
            "The trace was read to its end; entries answered: {}. Ending number {}.",
            run.entries, number
        ),
        Some(Refusal::Cut) if Header::from_bytes(trace).is_none() => format!(
            "The trace ends inside its header{}: nothing is answered. Ending number {}.",
            match Edition::of(trace) {
                Edition::First => "",
                Edition::Second => " of edition 2",
            },
            number
        ),
        Some(Refusal::Cut) => format!(
            "The trace ends inside entry {}, which gets no answer; answers before it, which stand: {}. Ending number {}.",
            run.entries + 1,
            run.entries,
            number
        ),
        Some(Refusal::NoRoom) => format!(
            "There was no room for the answer to entry {}; answers before it, which stand: {}. Ending number {}.",
            run.entries + 1,
            run.entries,
            number
        ),
        Some(refusal) => format!(
            "The header is refused with {}{}; no entry is looked at. Ending number {}.",
            refusal,
            refusal.rule().map_or(String::new(), |rule| format!(": {}", rule)),
            number
        ),
    }
}
