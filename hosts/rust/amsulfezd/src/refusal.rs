//! The refusal numbers of documents 01 and 02.

use crate::number::{with_number, UnknownNumber};
use std::fmt;

/// Why a call, a header, an entry, a trace, a frame, a capture's line, a setup or a station's bytes were refused.
#[derive(Debug, Clone, Copy, PartialEq, Eq, Hash)]
#[repr(u8)]
#[non_exhaustive]
pub enum Refusal {
    Address = 1,
    Slot = 2,
    Hsa = 3,
    Rotation = 4,
    GapWait = 5,
    Retry = 6,
    MinTsdr = 7,
    Watchdog = 8,
    Factors = 9,
    Baud = 10,
    Applications = 11,
    RecordLength = 12,
    TelegramCount = 13,
    ZeroBit = 14,
    NoBytes = 15,
    /// Of versions before document 02, P10: passive is accepted now, and no answer has this number any more.
    Passive = 16,
    Cut = 17,
    NoRoom = 18,
    FrameCut = 19,
    StartByte = 20,
    FrameHeader = 21,
    CheckByte = 22,
    EndByte = 23,
    AddressExtension = 24,
    GapRoom = 25,
    AskedAddress = 26,
    EqualAddresses = 27,
    Tick = 28,
    Stations = 29,
    BaudCodes = 30,
    CaptureLine = 31,
    CaptureTime = 32,
    CaptureCount = 33,
    FunctionCode = 34,
    Ticks = 35,
    Station = 36,
}

/// Every refusal, in the order of their numbers.
pub const ALL: &[Refusal] = &[
    Refusal::Address,
    Refusal::Slot,
    Refusal::Hsa,
    Refusal::Rotation,
    Refusal::GapWait,
    Refusal::Retry,
    Refusal::MinTsdr,
    Refusal::Watchdog,
    Refusal::Factors,
    Refusal::Baud,
    Refusal::Applications,
    Refusal::RecordLength,
    Refusal::TelegramCount,
    Refusal::ZeroBit,
    Refusal::NoBytes,
    Refusal::Passive,
    Refusal::Cut,
    Refusal::NoRoom,
    Refusal::FrameCut,
    Refusal::StartByte,
    Refusal::FrameHeader,
    Refusal::CheckByte,
    Refusal::EndByte,
    Refusal::AddressExtension,
    Refusal::GapRoom,
    Refusal::AskedAddress,
    Refusal::EqualAddresses,
    Refusal::Tick,
    Refusal::Stations,
    Refusal::BaudCodes,
    Refusal::CaptureLine,
    Refusal::CaptureTime,
    Refusal::CaptureCount,
    Refusal::FunctionCode,
    Refusal::Ticks,
    Refusal::Station,
];

impl Refusal {
    /// The documents' number.
    pub fn number(self) -> u8 {
        self as u8
    }

    /// The column "When" of document 01's table, and document 02's words.
    pub fn words(self) -> &'static str {
        match self {
            Refusal::Address => "address above 125",
            Refusal::Slot => "slot too small",
            Refusal::Hsa => "HSA",
            Refusal::Rotation => "rotation",
            Refusal::GapWait => "gap wait",
            Refusal::Retry => "retry",
            Refusal::MinTsdr => "min Tsdr",
            Refusal::Watchdog => {
                "watchdog outside 10..650,000 ms, or one factor zero in a header"
            }
            Refusal::Factors => "factors: u above 65,025",
            Refusal::Baud => "baud code above 10",
            Refusal::Applications => "applications not 1..8",
            Refusal::RecordLength => "poll record length",
            Refusal::TelegramCount => "telegram count above 8",
            Refusal::ZeroBit => "a bit that should be zero",
            Refusal::NoBytes => "sending 0 bytes",
            Refusal::Passive => "passive",
            Refusal::Cut => {
                "trace ends inside header or entry, or is above 2^32 bytes (checked with the header)"
            }
            Refusal::NoRoom => "no 8 bytes left for an answer",
            Refusal::FrameCut => "frame empty or cut short",
            Refusal::StartByte => "start byte",
            Refusal::FrameHeader => {
                "SD2 header: its repeated bytes differ or the length is outside 4 to 249"
            }
            Refusal::CheckByte => "check byte",
            Refusal::EndByte => "end byte",
            Refusal::AddressExtension => "address extension bit",
            Refusal::GapRoom => "rotation with no room for a gap poll",
            Refusal::AskedAddress => "who was heard: an address above 125",
            Refusal::EqualAddresses => "two stations with equal addresses",
            Refusal::Tick => "tick",
            Refusal::Stations => "number of stations, or no station with that place",
            Refusal::BaudCodes => "baud codes differ",
            Refusal::CaptureLine => {
                "a line that is not a time, one space, a frame in pairs of hex digits and a line feed, or has bytes after its frame"
            }
            Refusal::CaptureTime => "a time below the one before",
            Refusal::CaptureCount => "more than 8 of one time",
            Refusal::FunctionCode => {
                "top bit of the function code set; to be written, any other request"
            }
            Refusal::Ticks => "more than 1,000,000 ticks",
            Refusal::Station => "no station",
        }
    }

    /// Whether frames and captures alone are refused so: no trace ends and no entry is answered with it.
    pub fn is_of_frames(self) -> bool {
        matches!(self.number(), 19..=24 | 31..=34)
    }

    /// Whether a setup of several stations alone is refused so.
    pub fn is_of_setups(self) -> bool {
        matches!(self.number(), 27..=30 | 35)
    }

    /// Whether a trace that is replayed, or one of its entries, can be refused so.
    pub fn is_of_replays(self) -> bool {
        !self.is_of_frames()
            && !self.is_of_setups()
            && !matches!(self, Refusal::AskedAddress | Refusal::Station)
    }

    /// What the documents ask for instead, where the words alone do not say it.
    pub fn rule(self) -> Option<&'static str> {
        match self {
            Refusal::Slot => Some(
                "must be at least 100 bits for baud codes 0 to 5, then 200, 300, 400, 600, 1000",
            ),
            Refusal::Hsa => Some("must be above the address and at most 126"),
            Refusal::Rotation => Some("must be 256..16,777,960 bits"),
            Refusal::GapWait => Some("must be 1..100"),
            Refusal::Retry => Some("must be 1..15"),
            Refusal::MinTsdr => Some("must be at least 11"),
            Refusal::RecordLength => {
                Some("must be 8 + 6 for each application + 4 for each telegram")
            }
            Refusal::Passive => Some("that version had no passive state"),
            Refusal::GapRoom => Some("must be at least slot bits + 100"),
            Refusal::Tick => Some("must be 1..1,000,000 us"),
            Refusal::Stations => Some("must be 2..8"),
            Refusal::CaptureLine => Some("the time must have no leading zero and be below 2^48"),
            _ => None,
        }
    }
}

impl From<Refusal> for u8 {
    /// The documents' number.
    fn from(refusal: Refusal) -> u8 {
        refusal.number()
    }
}

impl TryFrom<u8> for Refusal {
    type Error = UnknownNumber;

    /// The refusal with this number; 0 is none.
    fn try_from(number: u8) -> Result<Refusal, UnknownNumber> {
        with_number(ALL, Refusal::number, number, "a refusal")
    }
}

impl fmt::Display for Refusal {
    /// The number and the documents' words.
    fn fmt(&self, f: &mut fmt::Formatter) -> fmt::Result {
        write!(f, "{} ({})", self.number(), self.words())
    }
}

impl std::error::Error for Refusal {}
