//! Document 01, "Trace": a header, then entries. Document 02, P9: the header has 16 bytes, or 14 that begin with 82h.

use crate::bits::{Reader, Writer};
use crate::record::{fits, Poll, Unfit};

/// The length of a header of edition 1 in bytes.
pub const HEADER_LENGTH: usize = 16;

/// The length of a header of edition 2 in bytes.
pub const SECOND_HEADER_LENGTH: usize = 14;

/// The first byte of a header of edition 2.
pub const SECOND_EDITION: u8 = 0x82;

/// The editions of a header.
#[derive(Debug, Clone, Copy, PartialEq, Eq, Hash)]
pub enum Edition {
    /// 16 bytes, each field in whole bytes.
    First,
    /// 14 bytes: 82h, then the fields packed.
    Second,
}

impl Edition {
    /// The edition of a trace's header: its first byte decides.
    pub fn of(trace: &[u8]) -> Edition {
        if trace.first() == Some(&SECOND_EDITION) {
            Edition::Second
        } else {
            Edition::First
        }
    }

    /// The length of a header in bytes.
    pub fn header_length(self) -> usize {
        match self {
            Edition::First => HEADER_LENGTH,
            Edition::Second => SECOND_HEADER_LENGTH,
        }
    }

    /// The other one.
    pub fn other(self) -> Edition {
        match self {
            Edition::First => Edition::Second,
            Edition::Second => Edition::First,
        }
    }

    /// 1 or 2.
    pub fn number(self) -> u8 {
        match self {
            Edition::First => 1,
            Edition::Second => 2,
        }
    }

    /// The fields' names and widths, in their order.
    fn fields(self) -> [(&'static str, u32); 12] {
        let widths = match self {
            Edition::First => [8, 8, 16, 32, 8, 8, 8, 8, 8, 8, 8, 8],
            Edition::Second => [7, 4, 16, 25, 7, 7, 4, 8, 3, 8, 8, 7],
        };
        let mut fields = [("", 0); 12];
        for (field, (name, width)) in fields.iter_mut().zip(NAMES.iter().zip(widths)) {
            *field = (*name, width);
        }
        fields
    }

    /// What the field of the applications has less than their number.
    fn less(self) -> u8 {
        match self {
            Edition::First => 0,
            Edition::Second => 1,
        }
    }
}

/// The names of a header's fields, in their order.
const NAMES: [&str; 12] = [
    "address",
    "baud code",
    "slot bits",
    "rotation bits",
    "gap wait",
    "HSA",
    "retry",
    "min Tsdr",
    "applications",
    "watchdog factor 1",
    "watchdog factor 2",
    "zero",
];

/// Document 01's baud codes 0 to 10, in bits a second.
pub const BAUD_RATES: [u32; 11] = [
    9_600, 19_200, 31_250, 45_450, 93_750, 187_500, 500_000, 1_500_000, 3_000_000, 6_000_000,
    12_000_000,
];

/// The settings at the head of a trace, each field as given. Whether they are accepted is the proved call's matter.
#[derive(Debug, Clone, Copy, PartialEq, Eq, Hash)]
pub struct Header {
    pub address: u8,
    pub baud: u8,
    pub slot_bits: u16,
    pub rotation_bits: u32,
    pub gap_wait: u8,
    pub hsa: u8,
    pub retry: u8,
    pub min_tsdr: u8,
    pub applications: u8,
    /// Both zero for no watchdog.
    pub watchdog_factors: (u8, u8),
    /// The last byte, in edition 2 the last seven bits, which should be zero.
    pub zero: u8,
}

impl Header {
    /// The settings of document 01's example 12 for this address, baud code and number of applications: slot 200,
    /// rotation 32,436, gap wait 10, HSA 126, retry 1, min Tsdr 11, no watchdog.
    pub fn new(address: u8, baud: u8, applications: u8) -> Header {
        Header {
            address,
            baud,
            slot_bits: 200,
            rotation_bits: 32_436,
            gap_wait: 10,
            hsa: 126,
            retry: 1,
            min_tsdr: 11,
            applications,
            watchdog_factors: (0, 0),
            zero: 0,
        }
    }

    /// The header's 16 bytes of edition 1.
    pub fn to_bytes(self) -> [u8; HEADER_LENGTH] {
        let bytes = self.to_edition(Edition::First);
        let bytes = bytes.expect("every value fits into edition 1");
        bytes.try_into().expect("16 bytes")
    }

    /// The header's bytes of this edition. Edition 2 has room for the fields of every header that the proved call accepts.
    ///
    /// ```
    /// use amsulfezd::trace::{Edition, Header};
    ///
    /// let header = Header::new(5, 6, 1);
    /// let bytes = header.to_edition(Edition::Second)?;
    /// assert_eq!(bytes, [0x82, 0x0a, 0xc0, 0x19, 0, 0x07, 0xeb, 0x41, 0x5f, 0x84, 0x2c, 0, 0, 0]);
    /// assert_eq!(Header::from_bytes(&bytes), Some(header));
    /// # Ok::<(), amsulfezd::record::Unfit>(())
    /// ```
    pub fn to_edition(self, edition: Edition) -> Result<Vec<u8>, Unfit> {
        let applications = self
            .applications
            .checked_sub(edition.less())
            .ok_or(Unfit("applications"))?;
        let values = [
            u32::from(self.address),
            u32::from(self.baud),
            u32::from(self.slot_bits),
            self.rotation_bits,
            u32::from(self.gap_wait),
            u32::from(self.hsa),
            u32::from(self.retry),
            u32::from(self.min_tsdr),
            u32::from(applications),
            u32::from(self.watchdog_factors.0),
            u32::from(self.watchdog_factors.1),
            u32::from(self.zero),
        ];
        let mut word = Writer::default();
        if edition == Edition::Second {
            word.put(8, u64::from(SECOND_EDITION));
        }
        for ((name, width), value) in edition.fields().into_iter().zip(values) {
            fits(name, u64::from(value), width)?;
            word.put(width, u64::from(value));
        }
        Ok(word.bytes(edition.header_length()))
    }

    /// The header of a trace, of the edition that its first byte says; none if the trace ends inside it.
    pub fn from_bytes(trace: &[u8]) -> Option<Header> {
        let edition = Edition::of(trace);
        let mut word = Reader::of_bytes(trace.get(..edition.header_length())?);
        if edition == Edition::Second {
            word.take(8);
        }
        let [address, baud, slot_bits, rotation_bits, gap_wait, hsa, retry, min_tsdr, applications, f1, f2, zero] =
            edition.fields().map(|(_, width)| word.take(width));
        Some(Header {
            address: address as u8,
            baud: baud as u8,
            slot_bits: slot_bits as u16,
            rotation_bits: rotation_bits as u32,
            gap_wait: gap_wait as u8,
            hsa: hsa as u8,
            retry: retry as u8,
            min_tsdr: min_tsdr as u8,
            applications: applications as u8 + edition.less(),
            watchdog_factors: (f1 as u8, f2 as u8),
            zero: zero as u8,
        })
    }
}

/// A trace with its header in the other edition and the same entries; none if it ends inside its header or if a field does
/// not fit, which no header has that the proved call accepts.
///
/// ```
/// use amsulfezd::trace::{in_other_edition, Header, TraceBuilder};
///
/// let mut trace = TraceBuilder::new(Header::new(5, 6, 1));
/// trace.online();
/// let trace = trace.into_bytes();
/// let shorter = in_other_edition(&trace).expect("a whole header");
/// assert_eq!((trace.len(), shorter.len()), (17, 15));
/// assert_eq!(in_other_edition(&shorter), Some(trace));
/// ```
pub fn in_other_edition(trace: &[u8]) -> Option<Vec<u8>> {
    let edition = Edition::of(trace);
    let header = Header::from_bytes(trace)?;
    let mut moved = header.to_edition(edition.other()).ok()?;
    moved.extend_from_slice(&trace[edition.header_length()..]);
    Some(moved)
}

/// Writes a trace: the header first, then an entry for each call.
///
/// ```
/// use amsulfezd::record::{Decision, Poll, Telegram};
/// use amsulfezd::trace::{entries, Header, TraceBuilder};
///
/// // Address 5, 500 kbaud, one application.
/// let mut trace = TraceBuilder::new(Header::new(5, 6, 1));
/// trace.online();
/// trace.poll(&Poll::at(1000))?; // nothing came
/// trace.poll(&Poll::at(1500).telegram(Telegram::token(9, 9)).pending(3))?; // a token was heard
/// trace.poll(&Poll::at(2000).normal(0, Decision::asks(20, 10)))?; // what application 0 would send
/// assert_eq!(entries(&trace.into_bytes()).count(), 4);
/// # Ok::<(), amsulfezd::record::Unfit>(())
/// ```
#[derive(Debug, Clone, PartialEq, Eq, Hash)]
pub struct TraceBuilder {
    applications: usize,
    bytes: Vec<u8>,
}

impl TraceBuilder {
    /// A trace with these settings, in edition 1, and no entry.
    pub fn new(header: Header) -> TraceBuilder {
        TraceBuilder::with_header(header, header.to_bytes().to_vec())
    }

    /// A trace with these settings, in this edition, and no entry.
    pub fn in_edition(edition: Edition, header: Header) -> Result<TraceBuilder, Unfit> {
        Ok(TraceBuilder::with_header(
            header,
            header.to_edition(edition)?,
        ))
    }

    fn with_header(header: Header, bytes: Vec<u8>) -> TraceBuilder {
        TraceBuilder {
            applications: usize::from(header.applications),
            bytes,
        }
    }

    /// The station was put online.
    pub fn online(&mut self) {
        self.bytes.push(ONLINE);
    }

    /// The station was taken offline.
    pub fn offline(&mut self) {
        self.bytes.push(OFFLINE);
    }

    /// The station was told to be passive.
    pub fn passive(&mut self) {
        self.bytes.push(PASSIVE);
    }

    /// The station was polled.
    pub fn poll(&mut self, poll: &Poll) -> Result<(), Unfit> {
        self.record(&poll.to_bytes(self.applications)?)
    }

    /// A poll record given by its bytes, good or bad: 3 to 255 of them.
    pub fn record(&mut self, record: &[u8]) -> Result<(), Unfit> {
        self.bytes.extend(entry_of_record(record)?);
        Ok(())
    }

    /// The trace's bytes.
    pub fn into_bytes(self) -> Vec<u8> {
        self.bytes
    }
}

/// The first byte of a command: the station is put online, taken offline, told to be passive.
pub const ONLINE: u8 = 0;
pub const OFFLINE: u8 = 1;
pub const PASSIVE: u8 = 2;

/// The entry of a poll, for a station with this many applications: a byte with the record's length, and the record.
pub fn entry_of(poll: &Poll, applications: usize) -> Result<Vec<u8>, Unfit> {
    entry_of_record(&poll.to_bytes(applications)?)
}

/// The entry of a poll record given by its bytes.
fn entry_of_record(record: &[u8]) -> Result<Vec<u8>, Unfit> {
    if record.len() < 3 || 255 < record.len() {
        return Err(Unfit("a record of fewer than 3 or more than 255 bytes"));
    }
    Ok([&[record.len() as u8], record].concat())
}

/// An entry of a trace.
#[derive(Debug, Clone, Copy, PartialEq, Eq, Hash)]
pub enum Entry<'a> {
    Online,
    Offline,
    Passive,
    /// A poll record, good or bad.
    Poll(&'a [u8]),
    /// The trace ends inside this entry.
    Cut(&'a [u8]),
}

/// The entries of a trace, in their order. An entry that is cut short is the last.
pub fn entries(trace: &[u8]) -> Entries<'_> {
    Entries {
        rest: trace
            .get(Edition::of(trace).header_length()..)
            .unwrap_or(&[]),
    }
}

/// See [`entries`].
#[derive(Debug, Clone)]
pub struct Entries<'a> {
    rest: &'a [u8],
}

impl<'a> Iterator for Entries<'a> {
    type Item = Entry<'a>;

    fn next(&mut self) -> Option<Entry<'a>> {
        let (&first, after) = self.rest.split_first()?;
        let length = if first <= PASSIVE {
            0
        } else {
            usize::from(first)
        };
        if after.len() < length {
            self.rest = &[];
            return Some(Entry::Cut(after));
        }
        let (record, rest) = after.split_at(length);
        self.rest = rest;
        Some(match first {
            ONLINE => Entry::Online,
            OFFLINE => Entry::Offline,
            PASSIVE => Entry::Passive,
            _ => Entry::Poll(record),
        })
    }
}
