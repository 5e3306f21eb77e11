//! Document 02, P13: a bus monitor's capture. A line is a decimal time in microseconds, one space, a frame as pairs of hex
//! digits and a line feed. The calls are there where the static library is linked (see `build.rs`).

use crate::refusal::Refusal;

/// The bytes of an entry that a line begins.
pub const ENTRY_LENGTH: usize = 19;
/// The bytes that a further line of the same time adds.
pub const ADDED_LENGTH: usize = 4;
/// The lines of one time at most.
pub const MOST_TELEGRAMS: usize = 8;
/// The longest line that is written, in bytes.
pub const LONGEST_LINE: usize = 29;

/// What a call wrote, and what it refused.
#[derive(Debug, Clone, Copy, PartialEq, Eq, Hash)]
pub struct Written {
    /// How many bytes were written. They stand, whatever was refused.
    pub bytes: usize,
    /// What ended the call; none if nothing did.
    pub refused: Option<Refused>,
}

/// What ended a call on captures.
#[derive(Debug, Clone, Copy, PartialEq, Eq, Hash)]
pub struct Refused {
    /// Why.
    pub refusal: Refusal,
    /// The line of the text, or the entry, counted from 1.
    pub at: u64,
}

#[cfg(linked)]
pub use linked::{export, export_whole, import, import_whole};

#[cfg(linked)]
mod linked {
    use super::{Refused, Written, ENTRY_LENGTH, LONGEST_LINE};
    use crate::refusal::Refusal;

    extern "C" {
        /// The proved calls as `hosts/c/amsulfezd.h` documents them.
        fn amsulfezd_import_capture(
            text: *const u8,
            text_len: usize,
            entries: *mut u8,
            entries_len: usize,
            line: *mut u64,
            written: *mut u64,
        ) -> u64;
        fn amsulfezd_export_capture(
            entries: *const u8,
            entries_len: usize,
            text: *mut u8,
            text_len: usize,
            entry: *mut u64,
            written: *mut u64,
        ) -> u64;
    }

    /// What a call left, taken apart.
    fn taken_apart(number: u64, at: u64, written: u64) -> Written {
        let refused = u8::try_from(number)
            .ok()
            .filter(|number| *number != 0)
            .map(|number| {
                let refusal = Refusal::try_from(number)
                    .expect("the calls are proved to return one of their numbers");
                Refused { refusal, at }
            });
        let bytes = usize::try_from(written).expect("it fits the buffer");
        Written { bytes, refused }
    }

    /// Makes trace entries of a capture's text, without header and online, for a station with one application that declines.
    /// Lines of equal time make one record. The first bad line ends it; the lines before it stand, and bytes past what is
    /// written keep their value.
    ///
    /// ```
    /// use amsulfezd::capture::{import, Refused, Written};
    /// use amsulfezd::refusal::Refusal;
    ///
    /// let mut entries = [0; 64];
    /// let written = import(b"1000 dc0509\n1000 E5\n1200 100509495716\n", &mut entries);
    /// assert_eq!(written, Written { bytes: 19 + 4 + 19, refused: None });
    /// assert_eq!(entries[..9], [22, 0, 0, 0, 0, 0x03, 0xe8, 0x10, 0]);
    /// let refused = Some(Refused { refusal: Refusal::CaptureTime, at: 2 });
    /// assert_eq!(import(b"7 e5\n6 e5\n", &mut entries), Written { bytes: 19, refused });
    /// ```
    pub fn import(text: &[u8], entries: &mut [u8]) -> Written {
        let (mut line, mut written) = (0, 0);
        // SAFETY: the pointers come from slices and numbers that are borrowed for the time of the call, those to be written
        // mutably, so that none overlap, and are valid for the lengths given. The library keeps none, and it is proved to stay
        // inside them and to return.
        let number = unsafe {
            amsulfezd_import_capture(
                text.as_ptr(),
                text.len(),
                entries.as_mut_ptr(),
                entries.len(),
                &mut line,
                &mut written,
            )
        };
        taken_apart(number, line, written)
    }

    /// Imports with room for all entries; gives those written and what ended it.
    pub fn import_whole(text: &[u8]) -> (Vec<u8>, Option<Refused>) {
        let lines = text.iter().filter(|byte| **byte == b'\n').count();
        let mut entries = vec![0; ENTRY_LENGTH * lines];
        let written = import(text, &mut entries);
        entries.truncate(written.bytes);
        (entries, written.refused)
    }

    /// Makes a capture's text of trace entries, without header, whose records are for one application: a line for each telegram
    /// that can be written as a frame. The first bad entry ends it, or the first line without room; the lines before it
    /// stand, and bytes past what is written keep their value.
    ///
    /// ```
    /// use amsulfezd::capture::{export_whole, import_whole, Refused};
    /// use amsulfezd::refusal::Refusal;
    ///
    /// let (mut entries, _) = import_whole(b"1000 DC0509\n1000 100509596716\n");
    /// assert_eq!(export_whole(&entries), (b"1000 dc0509\n".to_vec(), None));
    /// entries.push(14);
    /// let refused = Some(Refused { refusal: Refusal::Cut, at: 2 });
    /// assert_eq!(export_whole(&entries), (b"1000 dc0509\n".to_vec(), refused));
    /// ```
    pub fn export(entries: &[u8], text: &mut [u8]) -> Written {
        let (mut entry, mut written) = (0, 0);
        // SAFETY: as for `import`.
        let number = unsafe {
            amsulfezd_export_capture(
                entries.as_ptr(),
                entries.len(),
                text.as_mut_ptr(),
                text.len(),
                &mut entry,
                &mut written,
            )
        };
        taken_apart(number, entry, written)
    }

    /// Exports with room for all lines; gives the text written and what ended it.
    pub fn export_whole(entries: &[u8]) -> (Vec<u8>, Option<Refused>) {
        let mut text = vec![0; LONGEST_LINE * (entries.len() / 4)];
        let written = export(entries, &mut text);
        text.truncate(written.bytes);
        (text, written.refused)
    }
}
