//! Document 02, P1: frames as they stand on the bus. The calls are there where the static library is linked (see
//! `build.rs`).

use crate::record::Telegram;

/// Start byte of a frame without data, 6 bytes.
pub const SD1: u8 = 0x10;
/// Start byte of a frame with 1 to 246 data bytes, 10 to 255 bytes.
pub const SD2: u8 = 0x68;
/// Start byte of a frame with 8 data bytes, 14 bytes.
pub const SD3: u8 = 0xa2;
/// Start byte of a token, 3 bytes.
pub const SD4: u8 = 0xdc;
/// A short confirmation, the whole frame.
pub const SC: u8 = 0xe5;
/// End byte of a frame with SD1, SD2 or SD3.
pub const END: u8 = 0x16;
/// Function code of a status request.
pub const STATUS_REQUEST: u8 = 0x49;

/// The longest frame that is read, in bytes.
pub const LONGEST_READ: usize = 255;
/// The longest frame that is written, in bytes.
pub const LONGEST_WRITTEN: usize = 6;

/// A frame that was read.
#[derive(Debug, Clone, Copy, PartialEq, Eq, Hash)]
pub struct Frame {
    /// What it says. Data are left out.
    pub telegram: Telegram,
    /// The telegram's 32 bits, as in a poll record.
    pub word: u32,
    /// How many bytes it takes.
    pub used: usize,
}

#[cfg(linked)]
pub use linked::{read, write};

#[cfg(linked)]
mod linked {
    use super::Frame;
    use crate::record::Telegram;
    use crate::refusal::Refusal;

    extern "C" {
        /// The proved calls as `hosts/c/amsulfezd.h` documents them.
        fn amsulfezd_read_frame(frame: *const u8, frame_len: usize) -> u64;
        fn amsulfezd_write_frame(word: u32, frame: *mut u8, frame_len: usize) -> u64;
    }

    /// Word and bytes of what a call returned, or the refusal.
    fn taken_apart(returned: u64) -> Result<(u32, usize), Refusal> {
        let [_, _, word @ .., used, number] = returned.to_be_bytes();
        match number {
            0 => Ok((u32::from_be_bytes(word), usize::from(used))),
            number => Err(Refusal::try_from(number)
                .expect("the calls are proved to return one of their numbers")),
        }
    }

    /// Reads one frame at the start of these bytes. Bytes after it are not looked at.
    ///
    /// ```
    /// use amsulfezd::frame::read;
    /// use amsulfezd::record::Telegram;
    /// use amsulfezd::refusal::Refusal;
    ///
    /// let bytes = [0x10, 0x05, 0x09, 0x49, 0x57, 0x16, 0xe5];
    /// let frame = read(&bytes)?;
    /// assert_eq!((frame.telegram, frame.used), (Telegram::status_request(9, 5), 6));
    /// assert_eq!(read(&bytes[frame.used..])?.telegram, Telegram::ShortConfirmation);
    /// assert_eq!(read(&bytes[..5]), Err(Refusal::FrameCut));
    /// # Ok::<(), Refusal>(())
    /// ```
    pub fn read(bytes: &[u8]) -> Result<Frame, Refusal> {
        // SAFETY: the pointer comes from a slice and is valid for reading for the length given. The library does not keep
        // it, and it is proved to stay inside the slice, to write nothing and to return.
        let returned = unsafe { amsulfezd_read_frame(bytes.as_ptr(), bytes.len()) };
        let (word, used) = taken_apart(returned)?;
        Ok(Frame {
            telegram: Telegram::from_word(word),
            word,
            used,
        })
    }

    /// Writes a telegram's word as a frame and gives how many bytes it takes. Tokens, short confirmations, status requests
    /// and responses are written; the bytes after the frame keep their value, and what is refused writes nothing.
    ///
    /// ```
    /// use amsulfezd::frame::{write, LONGEST_WRITTEN};
    /// use amsulfezd::record::Telegram;
    /// use amsulfezd::refusal::Refusal;
    ///
    /// let mut frame = [0; LONGEST_WRITTEN];
    /// assert_eq!(write(Telegram::token(9, 5).word()?, &mut frame), Ok(3));
    /// assert_eq!(frame, [0xdc, 5, 9, 0, 0, 0]);
    /// assert_eq!(write(Telegram::request(9, 5).word()?, &mut frame), Err(Refusal::FunctionCode));
    /// # Ok::<(), amsulfezd::record::Unfit>(())
    /// ```
    pub fn write(word: u32, frame: &mut [u8]) -> Result<usize, Refusal> {
        // SAFETY: the pointer comes from a slice that is borrowed mutably and is valid for the length given. The library
        // does not keep it, and it is proved to stay inside the slice and to return.
        let returned = unsafe { amsulfezd_write_frame(word, frame.as_mut_ptr(), frame.len()) };
        taken_apart(returned).map(|(_, written)| written)
    }
}
