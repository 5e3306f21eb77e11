//! Document 02, P6, "Life counters in the station record": three counts, kept from what each poll of the published station
//! did, and the call that gives those of a finished trace.

use crate::fdl::Watched;
use crate::records::{join, state::*, Answer, PollRecord, Sent, Telegram};
use crate::trace::{start, whole_entries, Entry, Header, Runner};

/// The bytes of the counts.
pub const COUNTS: usize = 12;

/// "12 bytes: claims, removals, meetings of our own address, 32 bits each"
const WIDTHS: [usize; 3] = [32, 32, 32];

/// "how often a logger claimed the token, removed a neighbour and met its own address on the bus"
#[derive(Debug, Clone, Copy, Default, PartialEq, Eq)]
pub struct Counts {
    pub claims: u32,
    pub removals: u32,
    pub meetings: u32,
}

impl Counts {
    /// "32-bit counts that stop at their largest value"
    pub fn add(&mut self, events: Counts) {
        self.claims = self.claims.saturating_add(events.claims);
        self.removals = self.removals.saturating_add(events.removals);
        self.meetings = self.meetings.saturating_add(events.meetings);
    }

    fn encode(&self) -> Vec<u8> {
        join(WIDTHS, [self.claims, self.removals, self.meetings].map(u64::from))
    }
}

/// How the telegrams that a poll takes are looked at, where collisions are counted.
#[derive(Debug, Clone, Copy, PartialEq, Eq)]
pub enum Looks {
    Listening,
    Idle,
    Nowhere,
}

impl Looks {
    /// By the station before the poll.
    pub fn of(was: &Watched) -> Looks {
        match was.handled_in() {
            // a station that was put online listens from its first poll on
            LISTEN_TOKEN => Looks::Listening,
            // the first telegram in CheckTokenPass has led to ActiveIdle before it is looked at
            ACTIVE_IDLE | CHECK_TOKEN_PASS => Looks::Idle,
            // PassiveIdle (document 02, P10) counts none: "its own address as source changes nothing"
            _ => Looks::Nowhere,
        }
    }
}

/// The events of one accepted poll: the station before it, its record, its answer, and the station after it.
pub fn events(own: u8, was: &Watched, record: &PollRecord, answer: &Answer, is: &Watched) -> Counts {
    let taken = &record.telegrams[..usize::from(answer.consumed)];
    let meetings = match Looks::of(was) {
        Looks::Listening => met_in_listen_token(own, was.collision_count, taken),
        Looks::Idle => met_in_active_idle(own, was.collision_count, taken),
        Looks::Nowhere => 0,
    };
    Counts { claims: claims(was, is), removals: removals(was, answer), meetings }
}

/// "each entry to ClaimToken": the poll that sends the second token finds the station there.
fn claims(was: &Watched, is: &Watched) -> u32 {
    u32::from(was.state != CLAIM_TOKEN && is.state == CLAIM_TOKEN)
}

/// "each removal after a third attempt": nobody was heard within the slot, and a token is sent, which is the new next
/// station's or our own.
fn removals(was: &Watched, answer: &Answer) -> u32 {
    u32::from(was.attempt == 3 && matches!(answer.sent, Sent::Token { .. }))
}

/// "each collision counted in ListenToken": any telegram with our source. The second one in all takes the station offline,
/// and no telegram behind it is looked at.
fn met_in_listen_token(own: u8, earlier: u8, taken: &[Telegram]) -> u32 {
    let by_us = taken.iter().filter(|telegram| telegram.source() == Some(own));
    by_us.take(usize::from(2 - earlier)).count() as u32
}

/// "each collision counted in .. ActiveIdle": tokens only. The second one in a row leads to ListenToken, and no telegram
/// behind it is looked at; another's token begins a new row.
fn met_in_active_idle(own: u8, earlier: u8, taken: &[Telegram]) -> u32 {
    let (mut met, mut in_a_row) = (0, earlier);
    for telegram in taken {
        match *telegram {
            Telegram::Token { source, .. } if source == own => {
                met += 1;
                in_a_row += 1;
            }
            Telegram::Token { .. } => in_a_row = 0,
            _ => {}
        }
        if in_a_row == 2 {
            break;
        }
    }
    met
}

/// A station with its counts beside it: they "survive going offline, by command or by collision", since nothing clears them.
pub struct Counting {
    pub runner: Runner,
    pub counts: Counts,
}

impl Counting {
    /// A fresh station for an accepted header.
    pub fn new(header: &Header) -> Counting {
        Counting { runner: Runner::new(header), counts: Counts::default() }
    }

    /// Does what the entry says and counts what happened in it.
    pub fn entry(&mut self, entry: Entry) {
        let was = self.runner.station.watch();
        let answer = self.runner.entry(entry);
        let record = match entry {
            Entry::Poll(bytes) => PollRecord::decode(self.runner.applications, bytes),
            _ => return,
        };
        if let Ok(record) = record {
            let (own, is) = (self.runner.station.parameters().address, self.runner.station.watch());
            self.counts.add(events(own, &was, &record, &answer, &is));
        }
    }
}

/// What a trace with an accepted header leads to.
#[derive(Debug, Clone, Copy, Default, PartialEq, Eq)]
pub struct Counted {
    /// The whole entries.
    pub entries: u64,
    /// 0, or 17 where the trace ends inside an entry.
    pub ending: u8,
    pub counts: Counts,
}

/// Runs a trace to its end, which needs no room for answers; or the number of a refused header.
pub fn count(trace: &[u8]) -> Result<Counted, u8> {
    let (header, rest) = start(trace)?;
    let (entries, ending) = whole_entries(rest);
    let mut counting = Counting::new(&header);
    entries.iter().for_each(|entry| counting.entry(*entry));
    Ok(Counted { entries: entries.len() as u64, ending, counts: counting.counts })
}

/// What is answered of a trace that was run: "entries × 256 + ending number", and the counts' 12 bytes. The header's number
/// first, then 18; what is refused writes nothing.
pub fn asked(of: &Result<Counted, u8>, counts: &mut [u8]) -> u64 {
    let made = match of {
        Ok(made) => made,
        Err(number) => return u64::from(*number),
    };
    match counts.get_mut(..COUNTS) {
        Some(place) => place.copy_from_slice(&made.counts.encode()),
        None => return 18,
    }
    made.entries * 256 + u64::from(made.ending)
}

/// The call. What is refused is refused before the run.
pub fn trace_counts(trace: &[u8], counts: &mut [u8]) -> u64 {
    let run = if counts.len() < COUNTS { start(trace).map(|_| Counted::default()) } else { count(trace) };
    asked(&run, counts)
}

#[cfg(test)]
mod tests {
    use super::*;

    /// No trace is so long in a test: counts two below their largest value, then three events of each.
    #[test]
    fn counts_at_their_largest_stay() {
        let mut counts = Counts { claims: u32::MAX - 2, removals: u32::MAX - 1, meetings: u32::MAX };
        let one = Counts { claims: 1, removals: 1, meetings: 1 };
        counts.add(one);
        assert_eq!(counts, Counts { claims: u32::MAX - 1, removals: u32::MAX, meetings: u32::MAX });
        counts.add(Counts { meetings: 2, ..one });
        assert_eq!(counts, Counts { claims: u32::MAX, removals: u32::MAX, meetings: u32::MAX });
        counts.add(one);
        assert_eq!(counts.encode(), [255; COUNTS]);
        let each = Counts { claims: 0x0102_0304, removals: 0x0506_0708, meetings: 0x090a_0b0c };
        assert_eq!(each.encode(), [1, 2, 3, 4, 5, 6, 7, 8, 9, 10, 11, 12]);
    }
}
