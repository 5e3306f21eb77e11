//! A trace stepped one entry at a time by the calls on a station, and held to the trace call: "a trace is its header's station
//! stepped along its entries, answer by answer".

use super::run::Call;
use crate::editions::Edition;
use crate::trace::ANSWER;

/// The bytes of a station.
pub const STATION: usize = 96;

/// So many bytes behind the station, in the slice that is lent, are watched.
pub(crate) const BEHIND: usize = 8;

/// A call that takes a station one entry further: the station, the entry, and the buffer for its answer.
pub type Step<'a> = &'a dyn Fn(&mut [u8], &[u8], &mut [u8]) -> u64;

/// What a trace call returns and leaves, by a station that is opened and stepped. What the calls on a station promise beside that is
/// looked at, and a panic is a difference: that an entry's bytes are counted, that what is refused and an entry that is answered with
/// a refusal leave the station, and that bytes behind it stay.
pub fn step_trace(open: Call, step: Step, trace: &[u8], answers: &mut [u8]) -> u64 {
    stepped(open, &mut |station, entry, answer| step(station, entry, answer), trace, answers).0
}

/// A call that takes a station one entry further and may keep something beside it.
pub(crate) type Steps<'a> = &'a mut dyn FnMut(&mut [u8], &[u8], &mut [u8]) -> u64;

/// The same, and the station at the end; none where the header is refused.
pub(crate) fn stepped(
    open: Call,
    step: Steps,
    trace: &[u8],
    answers: &mut [u8],
) -> (u64, Option<[u8; STATION + BEHIND]>) {
    let mut station = [0x69; STATION + BEHIND];
    let opened = open(trace, &mut station);
    if opened % 256 != 0 {
        assert_eq!((opened / 256, station), (0, [0x69; STATION + BEHIND]), "a refused header writes");
        return (opened, None);
    }
    assert_eq!(opened / 256, STATION as u64, "not the bytes of a station");
    let mut rest = &trace[Edition::of(trace).length()..];
    let mut answered = 0;
    while !rest.is_empty() {
        let before = station;
        let room = &mut answers[ANSWER * answered..];
        let stepped = step(&mut station, rest, room);
        assert_eq!(station[STATION..], [0x69; BEHIND], "a byte behind the station");
        let refused = if stepped % 256 == 0 { room[0] >> 3 } else { (stepped % 256) as u8 };
        assert!(refused == 0 || station == before, "what is refused changes the station");
        if stepped % 256 != 0 {
            return (256 * answered as u64 + stepped, Some(station));
        }
        rest = &rest[(stepped / 256) as usize..];
        answered += 1;
    }
    (256 * answered as u64, Some(station))
}

#[cfg(test)]
mod tests {
    use super::*;
    use crate::trace::{Entry, Header, Runner};

    /// A station that is stepped by the oracle; its bytes are the number of entries so far.
    fn stepped(change: &dyn Fn(usize, &mut [u8])) -> Vec<u8> {
        let runner = std::cell::RefCell::new(Runner::new(&Header::EXAMPLE_12));
        let open = |_: &[u8], station: &mut [u8]| {
            station[..STATION].fill(0);
            256 * STATION as u64
        };
        let step = |station: &mut [u8], entry: &[u8], answer: &mut [u8]| {
            let (first, after) = match Entry::first(entry) {
                Some(found) => found,
                None => return 17,
            };
            let given = runner.borrow_mut().entry(first);
            answer[..ANSWER].copy_from_slice(&given.encode());
            change(usize::from(given.refusal), station);
            256 * (entry.len() - after.len()) as u64
        };
        let trace = [Header::EXAMPLE_12.write(), vec![0, 3, 0, 0, 0, 0, 14]].concat();
        let mut answers = vec![0; 3 * ANSWER];
        let number = step_trace(&open, &step, &trace, &mut answers);
        [number.to_be_bytes().to_vec(), answers].concat()
    }

    #[test]
    fn a_station_stepped_by_the_oracle_is_its_trace() {
        let good = stepped(&|_, _| ());
        assert_eq!(good[..8], (3u64 * 256 + 17).to_be_bytes());
        assert_eq!(good[16] >> 3, 12);
        let counts = stepped(&|refusal, station| station[0] += u8::from(refusal == 0));
        assert_eq!(counts, good);
    }

    #[test]
    #[should_panic(expected = "what is refused changes the station")]
    fn a_refused_entry_that_changes_the_station_is_found() {
        stepped(&|_, station| station[0] += 1);
    }

    #[test]
    #[should_panic(expected = "a byte behind the station")]
    fn a_byte_behind_the_station_is_found() {
        stepped(&|_, station| station[STATION] = 0);
    }
}
