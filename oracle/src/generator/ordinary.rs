//! One long ordinary trace, for measuring: a station with two applications in a ring of three, polled
//! at a steady pace on a bus on which nothing goes wrong but the questions to empty gap addresses.

use crate::records::{Decision, PollRecord, Sent, Telegram};
use crate::trace::{Entry, Header, Runner};

/// The station's address, and its two neighbours.
const OWN: u8 = 5;
const NEXT: u8 = 9;
const PREVIOUS: u8 = 20;
/// The peripheral that the first application asks.
const PERIPHERAL: u8 = 40;
/// Microseconds from poll to poll.
const PACE: u64 = 100;
/// How many times the first application asks while the token is held.
const ASKS: u32 = 3;

/// The header of the trace.
pub fn header() -> Header {
    Header { address: OWN, applications: 2, ..Header::EXAMPLE_12 }
}

/// The bus around the station: what will be heard, and when.
struct Bus {
    coming: Vec<(u64, Telegram)>,
    asked: u32,
}

impl Bus {
    /// The neighbours pass the token round twice, then ask us and give us the token.
    fn new(start: u64) -> Bus {
        let mut coming = Vec::new();
        for lap in 0..3 {
            coming.push((start + 400 * (2 * lap + 1), Telegram::token(NEXT, PREVIOUS)));
            coming.push((start + 400 * (2 * lap + 2), Telegram::token(PREVIOUS, NEXT)));
        }
        coming.push((start + 4000, Telegram::status_request(PREVIOUS, OWN)));
        coming.push((start + 5000, Telegram::token(PREVIOUS, OWN)));
        Bus { coming, asked: 0 }
    }

    /// What has come by now.
    fn heard(&mut self, now: u64) -> Vec<Telegram> {
        let due = self.coming.iter().take_while(|(time, _)| *time <= now).count();
        self.coming.drain(..due).map(|(_, telegram)| telegram).collect()
    }

    /// What follows on what the station sent.
    fn answer(&mut self, now: u64, sent: &Sent) {
        match *sent {
            Sent::Application { .. } => {
                self.asked += 1;
                let reply = Telegram::Response { destination: OWN, source: PERIPHERAL, station_type: 0, status: 0 };
                self.coming.push((now + 700, reply));
            }
            Sent::Token { .. } => {
                self.asked = 0;
                self.coming.push((now + 300, Telegram::token(NEXT, PREVIOUS)));
                self.coming.push((now + 600, Telegram::token(PREVIOUS, OWN)));
            }
            _ => {}
        }
    }
}

/// The trace with so many entries, and how many of them leave the station in each state.
pub fn ordinary_trace(entries: usize) -> (Vec<u8>, [u64; 10]) {
    let header = header();
    let mut runner = Runner::new(&header);
    let mut bytes = header.write();
    let mut now = 1000;
    let mut bus = Bus::new(now);
    let mut states = [0; 10];
    if entries > 0 {
        runner.entry(Entry::Online);
        bytes.push(0);
        states[0] += 1;
    }
    for _ in 1..entries {
        now += PACE;
        let mut record = PollRecord::silent(now, 2);
        if bus.asked < ASKS {
            record.decisions[0].0 = Decision::Sends { reply: Some(PERIPHERAL), length: 12 };
        }
        record.telegrams = bus.heard(now);
        record.pending = 3 * record.telegrams.len() as u16;
        let answer = runner.poll(&record);
        bus.answer(now, &answer.sent);
        states[usize::from(answer.state)] += 1;
        bytes.extend(record.entry());
    }
    (bytes, states)
}

#[cfg(test)]
mod tests {
    use super::*;
    use crate::trace::{replay_trace, ANSWER};

    #[test]
    fn the_ordinary_trace_is_whole_and_lives_in_the_ring() {
        let (trace, states) = ordinary_trace(20_000);
        let mut answers = vec![0; ANSWER * 20_000];
        assert_eq!(replay_trace(&trace, &mut answers), 20_000 * 256);
        // the token is used, passed and checked, replies and gap answers are awaited, and none of it
        // ends: the second half looks like the first
        let (_, half) = ordinary_trace(10_000);
        for state in [2, 3, 5, 6, 7, 8] {
            assert!(half[state] > 50, "state {}: {:?}", state, half);
            assert!(states[state] > half[state] + 50, "state {}: {:?}", state, states);
        }
        assert_eq!((states[0], states[4]), (1, 0));
    }
}
