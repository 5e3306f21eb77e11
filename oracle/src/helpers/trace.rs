//! Document 01, "Trace": the header, the entries, and the call that replays them.

use crate::baud::{Baudrate, LEAST_SLOT_BITS};
use crate::editions::Edition;
use crate::fdl::{FdlActiveStation, FdlApplication, Parameters, ParametersBuilder};
use crate::port::{RecordApplication, RecordPort};
use crate::records::{Answer, Notice, PollRecord, Sent};
use crate::time::Instant;

/// The longest trace: "is above 2^32 bytes" is refused.
pub const LONGEST: u64 = 1 << 32;

/// The bytes of one answer.
pub const ANSWER: usize = 8;

/// The header's fields as given, in either edition.
#[derive(Debug, Clone, Copy, PartialEq, Eq)]
pub struct Header {
    pub address: u8,
    pub baud: u8,
    pub slot: u16,
    pub rotation: u32,
    pub gap: u8,
    pub hsa: u8,
    pub retry: u8,
    pub min_tsdr: u8,
    pub applications: u8,
    pub factors: (u8, u8),
    pub zero: u8,
}

impl Header {
    /// The header of document 01's example 12.
    pub const EXAMPLE_12: Header = Header {
        address: 5,
        baud: 6,
        slot: 200,
        rotation: 32436,
        gap: 10,
        hsa: 126,
        retry: 1,
        min_tsdr: 11,
        applications: 1,
        factors: (0, 0),
        zero: 0,
    };

    /// The header that a trace starts with, if it has one that is accepted.
    pub fn accepted(trace: &[u8]) -> Option<Header> {
        let header = Header::read(trace)?;
        header.refusal().is_none().then_some(header)
    }

    /// The number of the refusal: that of the first fault.
    pub fn refusal(&self) -> Option<u8> {
        self.faults().first().copied()
    }

    /// The numbers of all faults in document 01's order "1, 10, 2, 3, 4, 5, 6, 7, 11, 8, 14", and document 02's 25 "directly
    /// after 4".
    pub fn faults(&self) -> Vec<u8> {
        let rules = [
            (1, self.address > 125),
            (10, self.baud > 10),
            (2, self.slot_too_small()),
            (3, self.hsa <= self.address || self.hsa > 126),
            (4, self.rotation < 256 || self.rotation > 16_777_960),
            (25, self.rotation < least_rotation(self.slot)),
            (5, self.gap < 1 || self.gap > 100),
            (6, self.retry < 1 || self.retry > 15),
            (7, self.min_tsdr < 11),
            (11, self.applications < 1 || self.applications > 8),
            (8, (self.factors.0 == 0) != (self.factors.1 == 0)),
            (14, self.zero != 0),
        ];
        rules.iter().filter(|(_, broken)| *broken).map(|(number, _)| *number).collect()
    }

    /// Whether the slot bits are below the least for the baud code, if that code is one.
    fn slot_too_small(&self) -> bool {
        LEAST_SLOT_BITS.get(usize::from(self.baud)).map_or(false, |least| self.slot < *least)
    }

    /// The settings of an accepted header, made by the published builder. "HSA does not set rotation
    /// here": the rotation is set after it.
    pub fn parameters(&self) -> Parameters {
        let baudrate = Baudrate::of_code(self.baud).expect("an accepted baud code");
        let mut parameters = ParametersBuilder::new(self.address, baudrate)
            .slot_bits(self.slot)
            .highest_station_address(self.hsa)
            .token_rotation_bits(self.rotation)
            .gap_wait_rotations(self.gap)
            .max_retry_limit(self.retry)
            .min_tsdr(self.min_tsdr)
            .build();
        if self.factors != (0, 0) {
            parameters.watchdog_factors = Some(self.factors);
        }
        parameters
    }
}

/// Document 02, P4: "Finished settings and trace headers need rotation of at least slot bits + 100". The sum is counted in
/// 32 bits and does not wrap.
pub fn least_rotation(slot: u16) -> u32 {
    u32::from(slot) + 100
}

/// "byte 0 online, 1 offline, 2 passive, any L ≥ 3 a poll record of L bytes"
#[derive(Debug, Clone, Copy, PartialEq, Eq)]
pub enum Entry<'a> {
    Online,
    Offline,
    Passive,
    Poll(&'a [u8]),
}

impl<'a> Entry<'a> {
    /// The first entry of these bytes and what follows it; `None` if they end inside it.
    pub fn first(bytes: &'a [u8]) -> Option<(Entry<'a>, &'a [u8])> {
        let (&kind, rest) = bytes.split_first()?;
        match kind {
            0 => Some((Entry::Online, rest)),
            1 => Some((Entry::Offline, rest)),
            2 => Some((Entry::Passive, rest)),
            length => {
                let length = usize::from(length);
                if rest.len() < length {
                    return None;
                }
                let (record, rest) = rest.split_at(length);
                Some((Entry::Poll(record), rest))
            }
        }
    }
}

/// A station with its number of applications, which "is fixed for life".
pub struct Runner {
    pub station: FdlActiveStation,
    pub applications: u8,
}

impl Runner {
    /// A fresh station for an accepted header.
    pub fn new(header: &Header) -> Runner {
        Runner { station: FdlActiveStation::new(header.parameters()), applications: header.applications }
    }

    /// Does what the entry says and gives its answer.
    pub fn entry(&mut self, entry: Entry) -> Answer {
        match entry {
            Entry::Online => self.station.set_online(),
            Entry::Offline => self.station.set_offline(),
            Entry::Passive => self.station.set_passive(),
            Entry::Poll(bytes) => match PollRecord::decode(self.applications, bytes) {
                Ok(record) => return self.poll(&record),
                Err((number, _)) => return self.answer(number),
            },
        }
        self.answer(0)
    }

    /// Polls the published station with a port and applications that do what the record says.
    pub fn poll(&mut self, record: &PollRecord) -> Answer {
        let now = Instant::from_micros(record.clock as i64);
        let mut port = RecordPort::new(record);
        let mut applications = RecordApplication::all(record);
        let mut list = Vec::with_capacity(applications.len());
        for application in applications.iter_mut() {
            list.push(application as &mut dyn FdlApplication);
        }
        let outcome = self.station.poll_done(now, &mut port, &mut list);
        let mut notice = Notice::Nothing;
        for application in &applications {
            if application.notice != Notice::Nothing {
                assert_eq!(notice, Notice::Nothing, "two notices in one poll");
                notice = application.notice;
            }
        }
        Answer { outcome, sent: port.sent, consumed: port.consumed as u8, notice, ..self.answer(0) }
    }

    /// The answer to an entry that sends, takes and tells nothing.
    fn answer(&self, refusal: u8) -> Answer {
        Answer {
            refusal,
            outcome: 0,
            state: self.station.state_number(),
            sent: Sent::Nothing,
            consumed: 0,
            notice: Notice::Nothing,
            next_application: self.station.next_application() as u8,
            next_station: self.station.inspect_token_ring().next().number(),
        }
    }
}

/// A trace in parts, and the buffer for its answers. Damage may have moved where the entries begin.
#[derive(Debug, Clone, PartialEq, Eq)]
pub struct Trace {
    pub header: Vec<u8>,
    /// One part for each entry as it was meant.
    pub entries: Vec<Vec<u8>>,
    /// The length of the answer buffer.
    pub room: usize,
    /// The byte that the buffer is filled with before the call.
    pub fill: u8,
}

impl Trace {
    /// The whole trace.
    pub fn bytes(&self) -> Vec<u8> {
        [self.header.clone(), self.entries.concat()].concat()
    }
}

/// Replays a trace: "Each entry's answer goes into the next 8 bytes of the caller's buffer. The call
/// returns entries answered × 256 + ending number."
pub fn replay_trace(trace: &[u8], answers: &mut [u8]) -> u64 {
    let (entries, ending) = replay(trace, answers);
    entries * 256 + u64::from(ending)
}

/// The header of a trace that is accepted, and what follows it; or the number that the trace ends with before any entry.
pub fn start(trace: &[u8]) -> Result<(Header, &[u8]), u8> {
    if trace.len() as u64 > LONGEST {
        return Err(17);
    }
    let header = Header::read(trace).ok_or(17)?;
    match header.refusal() {
        Some(number) => Err(number),
        None => Ok((header, &trace[Edition::of(trace).length()..])),
    }
}

/// The whole entries of what follows a header; and 17 where it ends inside one, else 0.
pub fn whole_entries(mut rest: &[u8]) -> (Vec<Entry<'_>>, u8) {
    let mut entries = Vec::new();
    while !rest.is_empty() {
        match Entry::first(rest) {
            Some((entry, after)) => {
                entries.push(entry);
                rest = after;
            }
            None => return (entries, 17),
        }
    }
    (entries, 0)
}

/// The entries answered, and the ending number.
fn replay(trace: &[u8], answers: &mut [u8]) -> (u64, u8) {
    let (header, mut rest) = match start(trace) {
        Ok(begun) => begun,
        Err(number) => return (0, number),
    };
    let mut runner = Runner::new(&header);
    let mut room = answers;
    let mut answered = 0;
    while !rest.is_empty() {
        let (entry, after) = match Entry::first(rest) {
            Some(found) => found,
            None => return (answered, 17),
        };
        if room.len() < ANSWER {
            return (answered, 18);
        }
        let (place, after_place) = room.split_at_mut(ANSWER);
        place.copy_from_slice(&runner.entry(entry).encode());
        room = after_place;
        rest = after;
        answered += 1;
    }
    (answered, 0)
}
