//! A station in bytes: made of settings, taken one entry further at a time, saved and loaded. The proved calls, safe. Only where
//! the static library is linked (see `build.rs`). [`crate::fdl`] has a station with the shape of profirust's above it.

use crate::answer::{Answer, ANSWER_LENGTH};
use crate::counts::{Counts, COUNTS_LENGTH};
use crate::heard::Table;
use crate::refusal::Refusal;

extern "C" {
    // The proved calls as `hosts/c/amsulfezd.h` documents them.
    fn amsulfezd_open_station(
        header: *const u8,
        header_len: usize,
        station: *mut u8,
        station_len: usize,
    ) -> u64;
    fn amsulfezd_step_station(
        station: *mut u8,
        station_len: usize,
        entry: *const u8,
        entry_len: usize,
        answer: *mut u8,
        answer_len: usize,
    ) -> u64;
    fn amsulfezd_step_heard(
        station: *mut u8,
        station_len: usize,
        entry: *const u8,
        entry_len: usize,
        answer: *mut u8,
        answer_len: usize,
        table: *mut u8,
        table_len: usize,
    ) -> u64;
    fn amsulfezd_station_counts(
        station: *const u8,
        station_len: usize,
        counts: *mut u8,
        counts_len: usize,
    ) -> u64;
}

/// The length of a station in bytes.
pub const STATION_LENGTH: usize = 96;

/// The bytes that a call has written or taken, none where it does not say, or the refusal.
fn taken_apart(returned: u64) -> Result<usize, Refusal> {
    match returned % 256 {
        0 => Ok((returned / 256) as usize),
        number => Err(Refusal::try_from(number as u8)
            .expect("the call is proved to return one of its refusal numbers")),
    }
}

/// Makes a fresh station of a header's settings at the start of `station` and gives its length; the bytes after it keep their
/// value, and all do where something is refused: [`Refusal::Cut`] or the header's number, then [`Refusal::NoRoom`].
pub fn open_station(header: &[u8], station: &mut [u8]) -> Result<usize, Refusal> {
    // SAFETY: both pointers come from slices and are valid for the lengths given; as `station` is borrowed mutably the two do not
    // overlap. The library keeps neither pointer, and it is proved to stay inside both slices and to return.
    taken_apart(unsafe {
        amsulfezd_open_station(
            header.as_ptr(),
            header.len(),
            station.as_mut_ptr(),
            station.len(),
        )
    })
}

/// Takes a station one entry further, writes the answer to the first 8 bytes of `answer`, and gives how many bytes the entry has.
/// Bytes behind station, entry and answer are not looked at. Refused, with nothing written: [`Refusal::Station`] where the bytes
/// are no station, then [`Refusal::Cut`] where the entry is empty or cut, then [`Refusal::NoRoom`].
pub fn step_station(station: &mut [u8], entry: &[u8], answer: &mut [u8]) -> Result<usize, Refusal> {
    // SAFETY: as for `open_station`.
    taken_apart(unsafe {
        amsulfezd_step_station(
            station.as_mut_ptr(),
            station.len(),
            entry.as_ptr(),
            entry.len(),
            answer.as_mut_ptr(),
            answer.len(),
        )
    })
}

/// Takes a station one entry further as [`step_station`] does, and feeds the first [`TABLE_LENGTH`](crate::heard::TABLE_LENGTH)
/// bytes of `table` with the telegrams that the poll consumed; they begin as zeros. Refused as there, [`Refusal::NoRoom`] also where
/// the table has fewer bytes.
pub fn step_heard(
    station: &mut [u8],
    entry: &[u8],
    answer: &mut [u8],
    table: &mut [u8],
) -> Result<usize, Refusal> {
    // SAFETY: as for `open_station`; the three slices that are written are borrowed mutably, each on its own.
    taken_apart(unsafe {
        amsulfezd_step_heard(
            station.as_mut_ptr(),
            station.len(),
            entry.as_ptr(),
            entry.len(),
            answer.as_mut_ptr(),
            answer.len(),
            table.as_mut_ptr(),
            table.len(),
        )
    })
}

/// Writes the counts of a station's life to the first 12 bytes of `counts`. Bytes behind station and counts are not looked at.
/// Refused, with nothing written: [`Refusal::Station`] where the bytes are no station, then [`Refusal::NoRoom`].
pub fn station_counts(station: &[u8], counts: &mut [u8]) -> Result<(), Refusal> {
    // SAFETY: as for `open_station`.
    taken_apart(unsafe {
        amsulfezd_station_counts(
            station.as_ptr(),
            station.len(),
            counts.as_mut_ptr(),
            counts.len(),
        )
    })
    .map(|_| ())
}

/// A station. Its bytes are all of it: written to disk and read again it goes on as if nothing had happened.
///
/// ```
/// use amsulfezd::answer::{Sent, State};
/// use amsulfezd::record::Poll;
/// use amsulfezd::refusal::Refusal;
/// use amsulfezd::settings::Settings;
/// use amsulfezd::station::Station;
/// use amsulfezd::trace::{entry_of, ONLINE};
///
/// // Station 5 is alone on its bus: after the lost-token time, 6,400 us, it claims the token.
/// let mut station = Station::open(&Settings::new(5, 6, 1)?.finish()?)?;
/// station.step(&[ONLINE])?;
/// let (used, answer) = station.step(&entry_of(&Poll::at(1_000), 1)?)?;
/// assert_eq!((used, answer.state), (15, State::ListenToken));
///
/// let saved = *station.bytes();
/// let mut station = Station::from_bytes(&saved)?;
/// let (_, answer) = station.step(&entry_of(&Poll::at(7_400), 1)?)?;
/// assert_eq!(answer.sent, Sent::Token { to: 5 });
/// assert_eq!(station.counts().claims, 1);
/// assert_eq!(Station::from_bytes(&saved[1..]), Err(Refusal::Station));
/// # Ok::<(), Box<dyn std::error::Error>>(())
/// ```
#[derive(Debug, Clone, PartialEq, Eq)]
pub struct Station {
    bytes: [u8; STATION_LENGTH],
}

impl Station {
    /// A fresh station of a header of either edition, such as finished settings. Refused: what a trace with this header is.
    pub fn open(header: &[u8]) -> Result<Station, Refusal> {
        let mut bytes = [0; STATION_LENGTH];
        open_station(header, &mut bytes)?;
        Ok(Station { bytes })
    }

    /// The station that these bytes begin with. Refused: [`Refusal::Station`] where they are none. The proved call says so: of an
    /// empty entry it is asked only after the station.
    pub fn from_bytes(bytes: &[u8]) -> Result<Station, Refusal> {
        let bytes: [u8; STATION_LENGTH] = bytes
            .get(..STATION_LENGTH)
            .and_then(|bytes| bytes.try_into().ok())
            .ok_or(Refusal::Station)?;
        let mut station = Station { bytes };
        match step_station(&mut station.bytes, &[], &mut []) {
            Err(Refusal::Cut) => Ok(station),
            Err(refusal) => Err(refusal),
            Ok(_) => unreachable!("an empty entry is refused"),
        }
    }

    /// The station's bytes.
    pub fn bytes(&self) -> &[u8; STATION_LENGTH] {
        &self.bytes
    }

    /// Does what the entry at the start of these bytes says, and gives how many it has and its answer. Refused:
    /// [`Refusal::Cut`] where they are empty or end inside it. An entry that a trace would answer with a refusal is answered, and
    /// the station stays as it was.
    pub fn step(&mut self, entry: &[u8]) -> Result<(usize, Answer), Refusal> {
        let mut answer = [0; ANSWER_LENGTH];
        let used = step_station(&mut self.bytes, entry, &mut answer)?;
        let answer = Answer::try_from(answer).expect("the call is proved to write an answer");
        Ok((used, answer))
    }

    /// The same, and takes note in the table of who was heard: the telegrams that the poll consumed.
    pub fn step_heard(
        &mut self,
        entry: &[u8],
        table: &mut Table,
    ) -> Result<(usize, Answer), Refusal> {
        let mut answer = [0; ANSWER_LENGTH];
        let used = step_heard(&mut self.bytes, entry, &mut answer, table.lent())?;
        let answer = Answer::try_from(answer).expect("the call is proved to write an answer");
        Ok((used, answer))
    }

    /// The counts of its life.
    pub fn counts(&self) -> Counts {
        let mut counts = [0; COUNTS_LENGTH];
        station_counts(&self.bytes, &mut counts).expect("it is a station, and there is room");
        Counts::from_bytes(&counts)
    }
}
