//! Document 01, "Station": the poll record.

use crate::bits::{word_of, Reader, Writer};
use crate::number::{with_number, UnknownNumber};
use std::fmt;

/// What kind of station sent a response.
#[derive(Debug, Clone, Copy, PartialEq, Eq, Hash)]
#[repr(u8)]
pub enum StationType {
    Slave = 0,
    NotReady = 1,
    WithoutToken = 2,
    InRing = 3,
}

/// Every station type, in the order of its number.
const STATION_TYPES: [StationType; 4] = [
    StationType::Slave,
    StationType::NotReady,
    StationType::WithoutToken,
    StationType::InRing,
];

impl StationType {
    /// The type that a field of two bits gives.
    pub(crate) fn of_two_bits(bits: u8) -> StationType {
        STATION_TYPES[usize::from(bits & 3)]
    }
}

impl From<StationType> for u8 {
    /// Document 01's number.
    fn from(station_type: StationType) -> u8 {
        station_type as u8
    }
}

impl TryFrom<u8> for StationType {
    type Error = UnknownNumber;

    fn try_from(number: u8) -> Result<StationType, UnknownNumber> {
        with_number(&STATION_TYPES, u8::from, number, "a station type")
    }
}

impl fmt::Display for StationType {
    /// Document 01's words.
    fn fmt(&self, f: &mut fmt::Formatter) -> fmt::Result {
        f.write_str(match self {
            StationType::Slave => "slave",
            StationType::NotReady => "not ready",
            StationType::WithoutToken => "without token",
            StationType::InRing => "in ring",
        })
    }
}

/// A telegram that the port reports as received. Addresses have 7 bits, the status of a response has 4 (0 is Ok).
#[derive(Debug, Clone, Copy, PartialEq, Eq, Hash)]
pub enum Telegram {
    Token {
        source: u8,
        destination: u8,
    },
    ShortConfirmation,
    Request {
        source: u8,
        destination: u8,
        status_request: bool,
    },
    Response {
        source: u8,
        destination: u8,
        station_type: StationType,
        status: u8,
    },
}

impl Telegram {
    /// A token passed from `source` to `destination`.
    pub fn token(source: u8, destination: u8) -> Telegram {
        Telegram::Token {
            source,
            destination,
        }
    }

    /// The question whether a station is there, and which.
    pub fn status_request(source: u8, destination: u8) -> Telegram {
        Telegram::Request {
            source,
            destination,
            status_request: true,
        }
    }

    /// Any other request.
    pub fn request(source: u8, destination: u8) -> Telegram {
        Telegram::Request {
            source,
            destination,
            status_request: false,
        }
    }

    /// A response with status Ok.
    pub fn response(source: u8, destination: u8, station_type: StationType) -> Telegram {
        Telegram::response_with_status(source, destination, station_type, 0)
    }

    /// A response with any status.
    pub fn response_with_status(
        source: u8,
        destination: u8,
        station_type: StationType,
        status: u8,
    ) -> Telegram {
        Telegram::Response {
            source,
            destination,
            station_type,
            status,
        }
    }

    /// Who sent it; a short confirmation does not say.
    pub fn source(&self) -> Option<u8> {
        match *self {
            Telegram::Token { source, .. }
            | Telegram::Request { source, .. }
            | Telegram::Response { source, .. } => Some(source),
            Telegram::ShortConfirmation => None,
        }
    }

    /// The telegram's 32 bits: kind 2, destination 7, source 7, status request 1, type 2, status 4, zero 9.
    fn to_bytes(self) -> Result<Vec<u8>, Unfit> {
        let (kind, destination, source, status_request, station_type, status) = match self {
            Telegram::Token {
                source,
                destination,
            } => (0, destination, source, false, 0, 0),
            Telegram::ShortConfirmation => (1, 0, 0, false, 0, 0),
            Telegram::Request {
                source,
                destination,
                status_request,
            } => (2, destination, source, status_request, 0, 0),
            Telegram::Response {
                source,
                destination,
                station_type,
                status,
            } => (3, destination, source, false, station_type.into(), status),
        };
        fits("address", u64::from(destination.max(source)), 7)?;
        fits("status", u64::from(status), 4)?;
        let mut word = Writer::default();
        word.put(2, kind);
        word.put(7, u64::from(destination));
        word.put(7, u64::from(source));
        word.put_flag(status_request);
        word.put(2, u64::from(station_type));
        word.put(4, u64::from(status));
        word.put(9, 0);
        Ok(word.bytes(4))
    }

    /// The telegram's 32 bits as a number: the word that a frame is written of.
    pub fn word(self) -> Result<u32, Unfit> {
        Ok(word_of(&self.to_bytes()?) as u32)
    }

    /// What the word of a frame says. Bits that its kind does not have are not looked at.
    pub fn from_word(word: u32) -> Telegram {
        Telegram::from_bytes(&word.to_be_bytes())
    }

    /// What an accepted record's 32 bits say.
    fn from_bytes(bytes: &[u8]) -> Telegram {
        let mut word = Reader::of_bytes(bytes);
        let kind = word.take(2);
        let destination = word.take_byte(7);
        let source = word.take_byte(7);
        let status_request = word.take_flag();
        let station_type = StationType::of_two_bits(word.take_byte(2));
        let status = word.take_byte(4);
        match kind {
            0 => Telegram::token(source, destination),
            1 => Telegram::ShortConfirmation,
            2 => Telegram::Request {
                source,
                destination,
                status_request,
            },
            _ => Telegram::response_with_status(source, destination, station_type, status),
        }
    }
}

/// What an application would do if it were asked in this poll.
#[derive(Debug, Clone, Copy, PartialEq, Eq, Hash, Default)]
pub enum Decision {
    #[default]
    Declines,
    /// It sends a telegram of `length` bytes and, if `reply_from` is given, waits for that station's reply.
    Sends { reply_from: Option<u8>, length: u8 },
}

impl Decision {
    /// A telegram of `length` bytes that asks `address` for a reply.
    pub fn asks(address: u8, length: u8) -> Decision {
        Decision::Sends {
            reply_from: Some(address),
            length,
        }
    }

    /// A telegram of `length` bytes that asks nobody for a reply.
    pub fn tells(length: u8) -> Decision {
        Decision::Sends {
            reply_from: None,
            length,
        }
    }

    /// The decision's 24 bits: sends 1, expects reply 1, reply address 7, length 8, zero 7.
    fn to_bytes(self) -> Result<Vec<u8>, Unfit> {
        let mut word = Writer::default();
        if let Decision::Sends { reply_from, length } = self {
            let address = reply_from.unwrap_or(0);
            fits("reply address", u64::from(address), 7)?;
            word.put_flag(true);
            word.put_flag(reply_from.is_some());
            word.put(7, u64::from(address));
            word.put(8, u64::from(length));
            word.put(7, 0);
        }
        Ok(word.bytes(3))
    }

    /// What an accepted record's 24 bits say.
    fn from_bytes(bytes: &[u8]) -> Decision {
        let mut word = Reader::of_bytes(bytes);
        let sends = word.take_flag();
        let expects_reply = word.take_flag();
        let address = word.take_byte(7);
        let length = word.take_byte(8);
        if sends {
            Decision::Sends {
                reply_from: if expects_reply { Some(address) } else { None },
                length,
            }
        } else {
            Decision::Declines
        }
    }
}

/// What one application decides, at normal and at high priority.
#[derive(Debug, Clone, Copy, PartialEq, Eq, Hash, Default)]
pub struct Decisions {
    pub normal: Decision,
    pub high: Decision,
}

/// A poll record: what the port reports and what the applications would send.
#[derive(Debug, Clone, PartialEq, Eq, Hash)]
pub struct Poll {
    /// Microseconds, below 2^48.
    pub clock: u64,
    /// The port is still transmitting.
    pub transmitting: bool,
    /// Bytes in the receive buffer, below 2^11.
    pub pending: u16,
    /// For each application; those past the end decline.
    pub decisions: Vec<Decisions>,
    /// The telegrams received, the oldest first.
    pub telegrams: Vec<Telegram>,
}

impl Poll {
    /// A poll at which nothing was received and every application declines.
    pub fn at(clock: u64) -> Poll {
        Poll {
            clock,
            transmitting: false,
            pending: 0,
            decisions: Vec::new(),
            telegrams: Vec::new(),
        }
    }

    /// The same, with the port still transmitting.
    pub fn transmitting(mut self) -> Poll {
        self.transmitting = true;
        self
    }

    /// The same, with this many bytes in the receive buffer.
    pub fn pending(mut self, bytes: u16) -> Poll {
        self.pending = bytes;
        self
    }

    /// The same, with one telegram more received.
    pub fn telegram(mut self, telegram: Telegram) -> Poll {
        self.telegrams.push(telegram);
        self
    }

    /// The same, with this application's decision at normal priority.
    pub fn normal(mut self, application: usize, decision: Decision) -> Poll {
        self.of_application(application).normal = decision;
        self
    }

    /// The same, with this application's decision at high priority.
    pub fn high(mut self, application: usize, decision: Decision) -> Poll {
        self.of_application(application).high = decision;
        self
    }

    fn of_application(&mut self, application: usize) -> &mut Decisions {
        if self.decisions.len() <= application {
            self.decisions.resize(application + 1, Decisions::default());
        }
        &mut self.decisions[application]
    }

    /// The record's bytes for a station with this many applications.
    pub fn to_bytes(&self, applications: usize) -> Result<Vec<u8>, Unfit> {
        fits("clock", self.clock, 48)?;
        fits("telegram count", self.telegrams.len() as u64, 4)?;
        fits("pending bytes", u64::from(self.pending), 11)?;
        if applications < self.decisions.len() {
            return Err(Unfit(
                "a decision of an application that the station does not have",
            ));
        }
        let mut head = Writer::default();
        head.put(48, self.clock);
        head.put_flag(self.transmitting);
        head.put(4, self.telegrams.len() as u64);
        head.put(11, u64::from(self.pending));
        let mut bytes = head.bytes(8);
        for application in 0..applications {
            let decisions = self.decisions.get(application).copied().unwrap_or_default();
            bytes.extend(decisions.normal.to_bytes()?);
            bytes.extend(decisions.high.to_bytes()?);
        }
        for telegram in &self.telegrams {
            bytes.extend(telegram.to_bytes()?);
        }
        Ok(bytes)
    }

    /// What an accepted record says. None if its length is not that of such a record. Whether it is accepted is not
    /// decided here: the proved call's answer tells.
    pub fn from_bytes(bytes: &[u8], applications: usize) -> Option<Poll> {
        let mut head = Reader::of_bytes(bytes.get(..8)?);
        let clock = head.take(48);
        let transmitting = head.take_flag();
        let telegrams = head.take(4) as usize;
        let pending = head.take(11) as u16;
        let (decided, heard) = (6 * applications, 4 * telegrams);
        if bytes.len() != 8 + decided + heard {
            return None;
        }
        let (decided, heard) = bytes[8..].split_at(decided);
        Some(Poll {
            clock,
            transmitting,
            pending,
            decisions: decided
                .chunks(6)
                .map(|both| Decisions {
                    normal: Decision::from_bytes(&both[..3]),
                    high: Decision::from_bytes(&both[3..]),
                })
                .collect(),
            telegrams: heard.chunks(4).map(Telegram::from_bytes).collect(),
        })
    }

    /// The clock of a record, refused or not, if it is long enough to have one.
    pub fn clock_of(bytes: &[u8]) -> Option<u64> {
        Some(Reader::of_bytes(bytes.get(..6)?).take(48))
    }
}

/// A value that its field in a trace cannot hold, in words.
#[derive(Debug, Clone, Copy, PartialEq, Eq, Hash)]
pub struct Unfit(pub(crate) &'static str);

impl fmt::Display for Unfit {
    fn fmt(&self, f: &mut fmt::Formatter) -> fmt::Result {
        write!(f, "does not fit into a trace: {}", self.0)
    }
}

impl std::error::Error for Unfit {}

/// Says which value does not fit into a field of this width.
pub(crate) fn fits(name: &'static str, value: u64, width: u32) -> Result<(), Unfit> {
    if value >> width == 0 {
        Ok(())
    } else {
        Err(Unfit(name))
    }
}
