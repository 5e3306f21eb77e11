//! Document 02, P7: who was heard, and when. The calls are there where the static library is linked: of a whole trace in
//! [`crate::replay`], of a table beside a station here.

use crate::bits::{Reader, Writer};
use crate::record::StationType;
use crate::run::{NotARun, Run};

/// The length of an address's entry in bytes.
pub const HEARD_LENGTH: usize = 17;

/// The last address that can be asked for.
pub const LAST_ADDRESS: u8 = 125;

/// The length of a table of who was heard, in bytes: an entry for each address.
pub const TABLE_LENGTH: usize = HEARD_LENGTH * (LAST_ADDRESS as usize + 1);

/// When an address was heard. First and last are in the order of hearing: after a clock that went back, last may be below
/// first.
#[derive(Debug, Clone, Copy, PartialEq, Eq, Hash)]
pub struct Heard {
    /// How often, at most 2^32 - 1.
    pub times: u32,
    /// The clock of the first telegram, in microseconds.
    pub first: u64,
    /// The clock of the last telegram.
    pub last: u64,
    /// What the last response said; none if no response was seen.
    pub station_type: Option<StationType>,
}

impl Heard {
    /// What an entry's 17 bytes say: none if the address was never heard. `None` outside if no entry has such bytes.
    ///
    /// ```
    /// use amsulfezd::heard::{Heard, HEARD_LENGTH};
    /// use amsulfezd::record::StationType;
    ///
    /// let bytes = [0, 0, 0, 3, 0, 0, 0, 0, 0x1f, 0x40, 0, 0, 0, 0, 0x03, 0xe8, 4];
    /// let heard = Heard { times: 3, first: 8000, last: 1000, station_type: Some(StationType::InRing) };
    /// assert_eq!(Heard::from_bytes(&bytes), Some(Some(heard)));
    /// assert_eq!(Heard::from_bytes(&[0; HEARD_LENGTH]), Some(None));
    /// ```
    pub fn from_bytes(bytes: &[u8; HEARD_LENGTH]) -> Option<Option<Heard>> {
        let (word, last_byte) = bytes.split_at(HEARD_LENGTH - 1);
        let mut word = Reader::of_bytes(word);
        let (times, first, last) = (word.take(32) as u32, word.take(48), word.take(48));
        let station_type = match last_byte[0] {
            0 => None,
            number => Some(StationType::try_from(number - 1).ok()?),
        };
        if times == 0 {
            return Some(None).filter(|_| bytes == &[0; HEARD_LENGTH]);
        }
        Some(Some(Heard {
            times,
            first,
            last,
            station_type,
        }))
    }

    /// The entry's 17 bytes. The clocks have 48 bits.
    pub fn to_bytes(self) -> [u8; HEARD_LENGTH] {
        let mut word = Writer::default();
        word.put(32, u64::from(self.times));
        word.put(48, self.first);
        word.put(48, self.last);
        let mut bytes = word.bytes(HEARD_LENGTH - 1);
        bytes.push(self.station_type.map_or(0, |kind| u8::from(kind) + 1));
        bytes.try_into().expect("17 bytes")
    }
}

#[cfg(linked)]
pub use linked::{table_heard, Table};

#[cfg(linked)]
mod linked {
    use super::{Heard, HEARD_LENGTH, TABLE_LENGTH};
    use crate::refusal::Refusal;

    extern "C" {
        /// The proved call as `hosts/c/amsulfezd.h` documents it.
        fn amsulfezd_table_heard(
            table: *const u8,
            table_len: usize,
            address: u8,
            entry: *mut u8,
            entry_len: usize,
        ) -> u64;
    }

    /// Writes what a table says of an address to the first 17 bytes of `entry`, zeros if it was never heard; the bytes after them
    /// keep their value. In a table that is too short for it an address was never heard. Refused, in this order, with nothing
    /// written: [`Refusal::AskedAddress`] for an address above 125, [`Refusal::NoRoom`].
    pub fn table_heard(table: &[u8], address: u8, entry: &mut [u8]) -> Result<(), Refusal> {
        // SAFETY: both pointers come from slices and are valid for the lengths given; as `entry` is borrowed mutably the two do
        // not overlap. The library keeps neither pointer, and it is proved to stay inside both slices and to return.
        let returned = unsafe {
            amsulfezd_table_heard(
                table.as_ptr(),
                table.len(),
                address,
                entry.as_mut_ptr(),
                entry.len(),
            )
        };
        match returned {
            0 => Ok(()),
            number => Err(u8::try_from(number)
                .ok()
                .and_then(|number| Refusal::try_from(number).ok())
                .expect("the call is proved to return one of its refusal numbers")),
        }
    }

    /// Who was heard beside a live station: [`crate::station::Station::step_heard`] feeds it, by the proved call.
    ///
    /// ```
    /// use amsulfezd::heard::Table;
    /// use amsulfezd::record::{Poll, Telegram};
    /// use amsulfezd::settings::Settings;
    /// use amsulfezd::station::Station;
    /// use amsulfezd::trace::{entry_of, ONLINE};
    ///
    /// let mut station = Station::open(&Settings::new(5, 6, 1)?.finish()?)?;
    /// let mut table = Table::default();
    /// station.step_heard(&[ONLINE], &mut table)?;
    /// let poll = Poll::at(1_000).telegram(Telegram::token(9, 12));
    /// station.step_heard(&entry_of(&poll, 1)?, &mut table)?;
    /// let nine = table.of(9).expect("9 was heard");
    /// assert_eq!((nine.times, nine.first, nine.last), (1, 1_000, 1_000));
    /// assert_eq!(table.of(12), None);
    /// assert_eq!(Table::from_bytes(table.bytes()), Some(table));
    /// # Ok::<(), Box<dyn std::error::Error>>(())
    /// ```
    #[derive(Debug, Clone, PartialEq, Eq)]
    pub struct Table {
        bytes: [u8; TABLE_LENGTH],
    }

    impl Default for Table {
        /// Nobody was heard.
        fn default() -> Table {
            Table {
                bytes: [0; TABLE_LENGTH],
            }
        }
    }

    impl Table {
        /// When this address was heard; none if never, or above 125.
        pub fn of(&self, address: u8) -> Option<Heard> {
            let mut entry = [0; HEARD_LENGTH];
            table_heard(&self.bytes, address, &mut entry).ok()?;
            Heard::from_bytes(&entry).expect("a table is made of entries")
        }

        /// The table's bytes, to be saved beside a station's.
        pub fn bytes(&self) -> &[u8; TABLE_LENGTH] {
            &self.bytes
        }

        /// The table of these bytes; none where they are not as many as a table has, or one of its entries is none.
        pub fn from_bytes(bytes: &[u8]) -> Option<Table> {
            let bytes: [u8; TABLE_LENGTH] = bytes.try_into().ok()?;
            let is_entry =
                |entry: &[u8]| entry.try_into().ok().and_then(Heard::from_bytes).is_some();
            bytes
                .chunks(HEARD_LENGTH)
                .all(is_entry)
                .then_some(Table { bytes })
        }

        /// What a step is lent.
        pub(crate) fn lent(&mut self) -> &mut [u8] {
            &mut self.bytes
        }
    }
}

/// The text that the program `heard_file` prints: a line for each address that was heard, in their order, with the address and
/// its entry as 34 hexadecimal digits; then entries and ending number.
pub fn to_text(heard: &[(u8, Heard)], run: &Run) -> String {
    let mut text = String::new();
    for (address, heard) in heard {
        let digits: String = heard
            .to_bytes()
            .iter()
            .map(|byte| format!("{:02x}", byte))
            .collect();
        text.push_str(&format!("{} {}\n", address, digits));
    }
    text.push_str(&format!("{} {}\n", run.entries, run.ending_number()));
    text
}

/// What `heard_file` printed.
pub fn from_text(text: &str) -> Result<(Vec<(u8, Heard)>, Run), NotARun> {
    let mut lines: Vec<&str> = text.lines().collect();
    let last = lines.pop().unwrap_or("");
    let run = Run::from_last_line(last)?;
    let mut all: Vec<(u8, Heard)> = Vec::new();
    for line in lines {
        let after = |address: &u8| all.last().map_or(true, |(earlier, _)| earlier < address);
        let read = line
            .split_once(' ')
            .and_then(|(address, digits)| Some((address.parse().ok()?, entry_of(digits)?)))
            .filter(|(address, _)| *address <= LAST_ADDRESS && after(address));
        let one =
            read.ok_or_else(|| NotARun::of(format!("not an address and its entry: {}", line)))?;
        all.push(one);
    }
    Ok((all, run))
}

/// The entry that 34 hexadecimal digits give.
fn entry_of(digits: &str) -> Option<Heard> {
    if digits.len() != 2 * HEARD_LENGTH || !digits.bytes().all(|byte| byte.is_ascii_hexdigit()) {
        return None;
    }
    let mut bytes = [0; HEARD_LENGTH];
    for (i, byte) in bytes.iter_mut().enumerate() {
        *byte = u8::from_str_radix(&digits[2 * i..2 * i + 2], 16).ok()?;
    }
    Heard::from_bytes(&bytes)?
}
