//! Document 02, P7, "Who was heard, and when": a summary beside the station, kept from the trace's records and answers, and
//! the call that gives the entry of one address.

use crate::records::{join, Answer, PollRecord, Telegram};
use crate::trace::{start, whole_entries, Entry, Runner};

/// "for the 126 addresses": 0 to 125.
const ADDRESSES: usize = 126;

/// The bytes of an entry.
pub const ENTRY: usize = 17;

/// "times heard 32 bits, first clock 48, last clock 48, one byte 0 (no response seen) or 1 + station type"
const WIDTHS: [usize; 4] = [32, 48, 48, 8];

/// "times heard (32 bits, stopping at the largest), first and last clock value, last station type if a response was seen"
#[derive(Debug, Clone, Copy, PartialEq, Eq)]
pub struct Heard {
    pub times: u32,
    pub first: u64,
    pub last: u64,
    pub station_type: Option<u8>,
}

impl Heard {
    fn encode(&self) -> Vec<u8> {
        let station_type = self.station_type.map_or(0, |station_type| station_type + 1);
        join(WIDTHS, [self.times.into(), self.first, self.last, station_type.into()])
    }
}

/// "a summary for the 126 addresses": each one's entry, none while it was never heard.
#[derive(Debug, Clone, PartialEq, Eq)]
pub struct Summary([Option<Heard>; ADDRESSES]);

impl Default for Summary {
    fn default() -> Self {
        Summary([None; ADDRESSES])
    }
}

impl Summary {
    /// The entry of one of the 126 addresses, "or .. that it was never heard".
    pub fn entry(&self, address: u8) -> Option<Heard> {
        self.0[usize::from(address)]
    }

    /// "It is fed by consumed telegrams only": the first of a poll's, as many as its answer says. A poll that is refused or
    /// comes while the station is offline consumes none. "Going offline does not clear it": no command is asked here.
    pub fn poll(&mut self, record: &PollRecord, answer: &Answer) {
        for telegram in &record.telegrams[..usize::from(answer.consumed)] {
            self.telegram(record.clock, telegram);
        }
    }

    /// "short confirmations and sources 126 and 127 are skipped". First is kept and last moves in the order of hearing,
    /// whatever the clock does.
    pub fn telegram(&mut self, clock: u64, telegram: &Telegram) {
        let place = match telegram.source() {
            Some(source) if usize::from(source) < ADDRESSES => &mut self.0[usize::from(source)],
            _ => return,
        };
        let entry = place.get_or_insert(Heard { times: 0, first: clock, last: clock, station_type: None });
        entry.times = entry.times.saturating_add(1);
        entry.last = clock;
        if let Telegram::Response { station_type, .. } = *telegram {
            entry.station_type = Some(station_type);
        }
    }
}

/// What a trace with an accepted header leads to.
#[derive(Debug, Clone, Default, PartialEq, Eq)]
pub struct Summarized {
    /// The whole entries.
    pub entries: u64,
    /// 0, or 17 where the trace ends inside an entry.
    pub ending: u8,
    pub summary: Summary,
}

/// Runs a trace to its end, which needs no room for answers; or the number of a refused header.
pub fn summarize(trace: &[u8]) -> Result<Summarized, u8> {
    let (header, rest) = start(trace)?;
    let (entries, ending) = whole_entries(rest);
    let mut runner = Runner::new(&header);
    let mut made = Summarized { ending, ..Summarized::default() };
    for entry in entries {
        let answer = runner.entry(entry);
        if let Entry::Poll(bytes) = entry {
            if let Ok(record) = PollRecord::decode(runner.applications, bytes) {
                made.summary.poll(&record, &answer);
            }
        }
        made.entries += 1;
    }
    Ok(made)
}

/// What is answered of a trace that was run: "entries × 256 + ending number", and the entry's 17 bytes, all zero for an
/// address that was never heard. 26 first, then the header's number, then 18; what is refused writes nothing.
pub fn asked(of: &Result<Summarized, u8>, address: u8, entry: &mut [u8]) -> u64 {
    if usize::from(address) >= ADDRESSES {
        return 26;
    }
    let made = match of {
        Ok(made) => made,
        Err(number) => return u64::from(*number),
    };
    let place = match entry.get_mut(..ENTRY) {
        Some(place) => place,
        None => return 18,
    };
    match made.summary.entry(address) {
        Some(heard) => place.copy_from_slice(&heard.encode()),
        None => place.fill(0),
    }
    made.entries * 256 + u64::from(made.ending)
}

/// The call. What is refused is refused before the run.
pub fn trace_heard(trace: &[u8], address: u8, entry: &mut [u8]) -> u64 {
    let refused = usize::from(address) >= ADDRESSES || entry.len() < ENTRY;
    let run = if refused { start(trace).map(|_| Summarized::default()) } else { summarize(trace) };
    asked(&run, address, entry)
}

#[cfg(test)]
mod tests {
    use super::*;

    /// No trace is so long in a test: 2^32 - 1 telegrams, then one more.
    #[test]
    fn a_count_at_its_largest_stays() {
        let mut summary = Summary::default();
        let largest = Heard { times: u32::MAX - 1, first: 7, last: 8, station_type: Some(0) };
        summary.0[9] = Some(largest);
        summary.telegram(20, &Telegram::token(9, 5));
        assert_eq!(summary.entry(9), Some(Heard { times: u32::MAX, last: 20, ..largest }));
        summary.telegram(10, &Telegram::Response { destination: 5, source: 9, station_type: 3, status: 1 });
        let after = Heard { times: u32::MAX, last: 10, station_type: Some(3), ..largest };
        assert_eq!(summary.entry(9), Some(after));
        let bytes = [255, 255, 255, 255, 0, 0, 0, 0, 0, 7, 0, 0, 0, 0, 0, 10, 4];
        assert_eq!(after.encode(), bytes);
        assert_eq!(bytes.len(), ENTRY);
    }
}
