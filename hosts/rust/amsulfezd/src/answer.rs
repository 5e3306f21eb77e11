//! Document 01, "Answer, 64 bits", and document 02 for the next station (P5) and the state PassiveIdle (P10).

use crate::bits::{Reader, Writer};
use crate::number::{unknown, with_number, UnknownNumber};
use crate::record::StationType;
use crate::refusal::Refusal;
use std::fmt;

/// The length of an answer in bytes.
pub const ANSWER_LENGTH: usize = 8;

/// How a poll ended.
#[derive(Debug, Clone, Copy, PartialEq, Eq, Hash)]
#[repr(u8)]
pub enum Outcome {
    /// No poll: a command, or an entry that was refused.
    None = 0,
    Offline = 1,
    /// A transmission was found going on, or one was begun.
    Transmission = 2,
    Bus = 3,
    Delay = 4,
}

/// The station's state after the entry, with the Rust's names.
#[derive(Debug, Clone, Copy, PartialEq, Eq, Hash)]
#[repr(u8)]
#[non_exhaustive]
pub enum State {
    Offline = 0,
    ListenToken = 1,
    ActiveIdle = 2,
    UseToken = 3,
    ClaimToken = 4,
    AwaitDataResponse = 5,
    PassToken = 6,
    CheckTokenPass = 7,
    AwaitStatusResponse = 8,
    PassiveIdle = 9,
}

/// Every outcome, in the order of its number.
const OUTCOMES: [Outcome; 5] = [
    Outcome::None,
    Outcome::Offline,
    Outcome::Transmission,
    Outcome::Bus,
    Outcome::Delay,
];

/// Every state, in the order of its number.
pub const STATES: &[State] = &[
    State::Offline,
    State::ListenToken,
    State::ActiveIdle,
    State::UseToken,
    State::ClaimToken,
    State::AwaitDataResponse,
    State::PassToken,
    State::CheckTokenPass,
    State::AwaitStatusResponse,
    State::PassiveIdle,
];

impl From<Outcome> for u8 {
    /// Document 01's number.
    fn from(outcome: Outcome) -> u8 {
        outcome as u8
    }
}

impl TryFrom<u8> for Outcome {
    type Error = UnknownNumber;

    fn try_from(number: u8) -> Result<Outcome, UnknownNumber> {
        with_number(&OUTCOMES, u8::from, number, "an outcome")
    }
}

impl From<State> for u8 {
    /// Document 01's number.
    fn from(state: State) -> u8 {
        state as u8
    }
}

impl TryFrom<u8> for State {
    type Error = UnknownNumber;

    fn try_from(number: u8) -> Result<State, UnknownNumber> {
        with_number(STATES, u8::from, number, "a state")
    }
}

/// What the station sent in a poll.
#[derive(Debug, Clone, Copy, PartialEq, Eq, Hash)]
pub enum Sent {
    Nothing,
    Token {
        to: u8,
    },
    StatusRequest {
        to: u8,
    },
    StatusResponse {
        to: u8,
        station_type: StationType,
    },
    /// An application's telegram. `reply_from` is 0 also where no reply is expected.
    Application {
        application: u8,
        high: bool,
        reply_from: u8,
        length: u8,
    },
}

impl Sent {
    /// How many bytes went out: a token has 3, a status request or response 6.
    pub fn length(self) -> u8 {
        match self {
            Sent::Nothing => 0,
            Sent::Token { .. } => 3,
            Sent::StatusRequest { .. } | Sent::StatusResponse { .. } => 6,
            Sent::Application { length, .. } => length,
        }
    }
}

/// What an application was told.
#[derive(Debug, Clone, Copy, PartialEq, Eq, Hash)]
pub enum Notice {
    Nothing,
    Reply { application: u8, address: u8 },
    Timeout { application: u8, address: u8 },
}

/// The number that an answer carries as next station where there is none.
pub const NOBODY: u8 = 127;

/// The station that our station hands the token to.
#[derive(Debug, Clone, Copy, PartialEq, Eq, Hash)]
pub enum NextStation {
    /// Our station is alone in its ring: it passes the token to itself.
    Nobody,
    /// The address, 0..125.
    Station(u8),
}

impl From<NextStation> for u8 {
    /// The number in an answer: the address, or [`NOBODY`].
    fn from(next: NextStation) -> u8 {
        match next {
            NextStation::Nobody => NOBODY,
            NextStation::Station(address) => address,
        }
    }
}

impl TryFrom<u8> for NextStation {
    type Error = UnknownNumber;

    fn try_from(number: u8) -> Result<NextStation, UnknownNumber> {
        match number {
            NOBODY => Ok(NextStation::Nobody),
            0..=125 => Ok(NextStation::Station(number)),
            _ => Err(unknown(number, "a next station")),
        }
    }
}

impl fmt::Display for NextStation {
    /// The address, or "nobody".
    fn fmt(&self, f: &mut fmt::Formatter) -> fmt::Result {
        match self {
            NextStation::Nobody => write!(f, "nobody"),
            NextStation::Station(address) => write!(f, "{}", address),
        }
    }
}

/// The answer to one entry.
#[derive(Debug, Clone, Copy, PartialEq, Eq, Hash)]
pub struct Answer {
    pub refusal: Option<Refusal>,
    pub outcome: Outcome,
    pub state: State,
    pub sent: Sent,
    /// How many telegrams of the poll were consumed.
    pub consumed: u8,
    pub notice: Notice,
    pub next_application: u8,
    pub next_station: NextStation,
}

impl Answer {
    /// Whether some entry can be answered so: only 12 to 16 refuse an entry (16 in versions before document 02, P10), and then
    /// with nothing but the number, the state, the next application and the next station; at most 8 telegrams are consumed;
    /// nobody sends 0 bytes.
    fn is_possible(&self) -> bool {
        let refused_well = match self.refusal {
            None => true,
            Some(refusal) => {
                (12..=16).contains(&refusal.number())
                    && self.outcome == Outcome::None
                    && self.sent == Sent::Nothing
                    && self.consumed == 0
                    && self.notice == Notice::Nothing
            }
        };
        let sends_bytes = self.sent == Sent::Nothing || self.sent.length() != 0;
        refused_well && sends_bytes && self.consumed <= 8
    }
}

impl From<Answer> for u64 {
    /// The answer's 64 bits. Of a value that is too large for its field the lowest bits are taken; no answer has one.
    fn from(answer: Answer) -> u64 {
        let (kind, to, station_type, application, high) = match answer.sent {
            Sent::Nothing => (0, 0, 0, 0, false),
            Sent::Token { to } => (1, to, 0, 0, false),
            Sent::StatusRequest { to } => (2, to, 0, 0, false),
            Sent::StatusResponse { to, station_type } => (3, to, u8::from(station_type), 0, false),
            Sent::Application {
                application,
                high,
                reply_from,
                ..
            } => (4, reply_from, 0, application, high),
        };
        let (notice, notified, address) = match answer.notice {
            Notice::Nothing => (0, 0, 0),
            Notice::Reply {
                application,
                address,
            } => (1, application, address),
            Notice::Timeout {
                application,
                address,
            } => (2, application, address),
        };
        let mut word = Writer::default();
        word.put(5, answer.refusal.map_or(0, |r| u64::from(r.number())));
        word.put(3, u64::from(u8::from(answer.outcome)));
        word.put(4, u64::from(u8::from(answer.state)));
        word.put(3, kind);
        word.put(7, u64::from(to));
        word.put(2, u64::from(station_type));
        word.put(3, u64::from(application));
        word.put_flag(high);
        word.put(8, u64::from(answer.sent.length()));
        word.put(4, u64::from(answer.consumed));
        word.put(2, notice);
        word.put(3, u64::from(notified));
        word.put(7, u64::from(address));
        word.put(3, u64::from(answer.next_application));
        word.put(7, u64::from(u8::from(answer.next_station)));
        word.put(2, 0);
        word.word()
    }
}

impl From<Answer> for [u8; ANSWER_LENGTH] {
    /// The answer's bytes, most significant first.
    fn from(answer: Answer) -> [u8; ANSWER_LENGTH] {
        u64::from(answer).to_be_bytes()
    }
}

impl TryFrom<u64> for Answer {
    type Error = NotAnAnswer;

    /// What 64 bits say, if an answer has them: every number known, every field without a meaning zero.
    fn try_from(bits: u64) -> Result<Answer, NotAnAnswer> {
        let mut word = Reader::new(bits);
        let refusal = word.take_byte(5);
        let outcome = word.take_byte(3);
        let state = word.take_byte(4);
        let kind = word.take_byte(3);
        let to = word.take_byte(7);
        let station_type = StationType::of_two_bits(word.take_byte(2));
        let application = word.take_byte(3);
        let high = word.take_flag();
        let length = word.take_byte(8);
        let consumed = word.take_byte(4);
        let notice = word.take_byte(2);
        let notified = word.take_byte(3);
        let address = word.take_byte(7);
        let next_application = word.take_byte(3);
        let next_station = word.take_byte(7);
        let not_an_answer = NotAnAnswer(bits);
        let unnumbered = |_: UnknownNumber| not_an_answer;
        let answer = Answer {
            refusal: match refusal {
                0 => None,
                number => match Refusal::try_from(number).map_err(unnumbered)? {
                    refusal if !refusal.is_of_replays() => return Err(not_an_answer),
                    refusal => Some(refusal),
                },
            },
            outcome: Outcome::try_from(outcome).map_err(unnumbered)?,
            state: State::try_from(state).map_err(unnumbered)?,
            sent: match kind {
                0 => Sent::Nothing,
                1 => Sent::Token { to },
                2 => Sent::StatusRequest { to },
                3 => Sent::StatusResponse { to, station_type },
                4 => Sent::Application {
                    application,
                    high,
                    reply_from: to,
                    length,
                },
                _ => return Err(not_an_answer),
            },
            consumed,
            notice: match notice {
                0 => Notice::Nothing,
                1 => Notice::Reply {
                    application: notified,
                    address,
                },
                2 => Notice::Timeout {
                    application: notified,
                    address,
                },
                _ => return Err(not_an_answer),
            },
            next_application,
            next_station: NextStation::try_from(next_station).map_err(unnumbered)?,
        };
        if u64::from(answer) == bits && answer.is_possible() {
            Ok(answer)
        } else {
            Err(not_an_answer)
        }
    }
}

impl TryFrom<[u8; ANSWER_LENGTH]> for Answer {
    type Error = NotAnAnswer;

    /// What 8 bytes say, most significant first.
    fn try_from(bytes: [u8; ANSWER_LENGTH]) -> Result<Answer, NotAnAnswer> {
        Answer::try_from(u64::from_be_bytes(bytes))
    }
}

/// 64 bits that no answer has.
#[derive(Debug, Clone, Copy, PartialEq, Eq, Hash)]
pub struct NotAnAnswer(u64);

impl NotAnAnswer {
    /// The bits.
    pub fn word(self) -> u64 {
        self.0
    }
}

impl fmt::Display for NotAnAnswer {
    fn fmt(&self, f: &mut fmt::Formatter) -> fmt::Result {
        write!(f, "{:016x} is not an answer", self.0)
    }
}

impl std::error::Error for NotAnAnswer {}

/// The answers in a buffer, in their order. Bytes after the last whole answer are left out.
pub fn answers(buffer: &[u8]) -> Answers<'_> {
    Answers {
        chunks: buffer.chunks_exact(ANSWER_LENGTH),
    }
}

/// See [`answers`].
#[derive(Debug, Clone)]
pub struct Answers<'a> {
    chunks: std::slice::ChunksExact<'a, u8>,
}

impl<'a> Iterator for Answers<'a> {
    type Item = Result<Answer, NotAnAnswer>;

    fn next(&mut self) -> Option<Result<Answer, NotAnAnswer>> {
        let chunk = self.chunks.next()?;
        let bytes = chunk.try_into().expect("chunks of 8 bytes");
        Some(Answer::try_from(u64::from_be_bytes(bytes)))
    }
}
