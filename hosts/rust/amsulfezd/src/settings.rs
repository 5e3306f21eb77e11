//! Settings in the 16 bytes of a header of edition 1: made new, set one by one, finished. The proved calls, safe. Only where
//! the static library is linked (see `build.rs`).
//!
//! The names and the order of use are those of profirust's `ParametersBuilder`; what it panics at is a [`Refusal`] here.

use crate::refusal::Refusal;
use crate::trace::HEADER_LENGTH;

extern "C" {
    // The proved calls as `hosts/c/amsulfezd.h` documents them.
    fn amsulfezd_new_settings(
        address: u8,
        baud: u8,
        applications: u8,
        header: *mut u8,
        header_len: usize,
    ) -> u64;
    fn amsulfezd_set_slot_bits(header: *mut u8, header_len: usize, slot_bits: u16) -> u64;
    fn amsulfezd_set_highest_station_address(header: *mut u8, header_len: usize, hsa: u8) -> u64;
    fn amsulfezd_set_token_rotation_bits(header: *mut u8, header_len: usize, bits: u32) -> u64;
    fn amsulfezd_set_gap_wait_rotations(header: *mut u8, header_len: usize, gap_wait: u8) -> u64;
    fn amsulfezd_set_max_retry_limit(header: *mut u8, header_len: usize, limit: u8) -> u64;
    fn amsulfezd_set_min_tsdr_bits(header: *mut u8, header_len: usize, bits: u8) -> u64;
    fn amsulfezd_set_watchdog_timeout(header: *mut u8, header_len: usize, ms: u32) -> u64;
    fn amsulfezd_finish_settings(header: *const u8, header_len: usize) -> u64;
}

/// Settings that are not finished: slot and rotation may still be set in either order.
///
/// ```
/// use amsulfezd::refusal::Refusal;
/// use amsulfezd::settings::Settings;
/// use amsulfezd::trace::Header;
///
/// let mut settings = Settings::new(5, 6, 1)?;
/// assert_eq!(settings.finish(), Ok(Header::new(5, 6, 1).to_bytes()));
/// settings.slot_bits(65_535)?;
/// assert_eq!(settings.finish(), Err(Refusal::GapRoom));
/// settings.highest_station_address(100)?.max_retry_limit(3)?;
/// assert_eq!(settings.gap_wait_rotations(0).err(), Some(Refusal::GapWait));
/// let bytes = settings.finish()?;
/// assert_eq!(bytes[2..10], [0xff, 0xff, 0x00, 0x07, 0xa1, 0x20, 10, 100]);
/// # Ok::<(), Refusal>(())
/// ```
#[derive(Debug, Clone, Copy, PartialEq, Eq, Hash)]
pub struct Settings {
    header: [u8; HEADER_LENGTH],
}

/// What a settings call returned.
fn answered(returned: u64) -> Result<(), Refusal> {
    match returned {
        0 => Ok(()),
        number => Err(Refusal::try_from(number as u8)
            .expect("the call is proved to return one of its refusal numbers")),
    }
}

// SAFETY, of every call below: the pointer comes from an array that is borrowed mutably, or read only by the last call, and is valid
// for the length given. The library keeps no pointer, and it is proved to stay inside the slice and to return.
impl Settings {
    /// New settings with the source's defaults. Refused: [`Refusal::Address`], [`Refusal::Baud`], [`Refusal::Applications`].
    pub fn new(address: u8, baud: u8, applications: u8) -> Result<Settings, Refusal> {
        let mut header = [0; HEADER_LENGTH];
        answered(unsafe {
            amsulfezd_new_settings(
                address,
                baud,
                applications,
                header.as_mut_ptr(),
                header.len(),
            )
        })?;
        Ok(Settings { header })
    }

    /// The settings of a header's 16 bytes, as they are; a setter and [`Settings::finish`] say what is refused of them.
    pub fn of_header(header: [u8; HEADER_LENGTH]) -> Settings {
        Settings { header }
    }

    /// The slot time in bits. Refused: [`Refusal::Slot`].
    pub fn slot_bits(&mut self, slot_bits: u16) -> Result<&mut Settings, Refusal> {
        let header = &mut self.header;
        answered(unsafe { amsulfezd_set_slot_bits(header.as_mut_ptr(), header.len(), slot_bits) })?;
        Ok(self)
    }

    /// The highest station address; it also sets the rotation to 5000 bits for each address. Refused: [`Refusal::Hsa`].
    pub fn highest_station_address(&mut self, hsa: u8) -> Result<&mut Settings, Refusal> {
        let header = &mut self.header;
        answered(unsafe {
            amsulfezd_set_highest_station_address(header.as_mut_ptr(), header.len(), hsa)
        })?;
        Ok(self)
    }

    /// The target token rotation time in bits. Refused: [`Refusal::Rotation`].
    pub fn token_rotation_bits(&mut self, bits: u32) -> Result<&mut Settings, Refusal> {
        let header = &mut self.header;
        answered(unsafe {
            amsulfezd_set_token_rotation_bits(header.as_mut_ptr(), header.len(), bits)
        })?;
        Ok(self)
    }

    /// How many token rotations to wait before the gap is polled again. Refused: [`Refusal::GapWait`].
    pub fn gap_wait_rotations(&mut self, gap_wait: u8) -> Result<&mut Settings, Refusal> {
        let header = &mut self.header;
        answered(unsafe {
            amsulfezd_set_gap_wait_rotations(header.as_mut_ptr(), header.len(), gap_wait)
        })?;
        Ok(self)
    }

    /// How often a telegram is retried. Refused: [`Refusal::Retry`].
    pub fn max_retry_limit(&mut self, limit: u8) -> Result<&mut Settings, Refusal> {
        let header = &mut self.header;
        answered(unsafe {
            amsulfezd_set_max_retry_limit(header.as_mut_ptr(), header.len(), limit)
        })?;
        Ok(self)
    }

    /// The least time in bits before anyone responds. Refused: [`Refusal::MinTsdr`].
    pub fn min_tsdr(&mut self, bits: u8) -> Result<&mut Settings, Refusal> {
        let header = &mut self.header;
        answered(unsafe { amsulfezd_set_min_tsdr_bits(header.as_mut_ptr(), header.len(), bits) })?;
        Ok(self)
    }

    /// The watchdog timeout in milliseconds. Refused: [`Refusal::Watchdog`].
    pub fn watchdog_timeout(&mut self, ms: u32) -> Result<&mut Settings, Refusal> {
        let header = &mut self.header;
        answered(unsafe { amsulfezd_set_watchdog_timeout(header.as_mut_ptr(), header.len(), ms) })?;
        Ok(self)
    }

    /// The header's bytes as they stand, finished or not.
    pub fn bytes(&self) -> [u8; HEADER_LENGTH] {
        self.header
    }

    /// The bytes of a header that a trace with it is not refused for, or what it is refused with, [`Refusal::GapRoom`] among them.
    pub fn finish(&self) -> Result<[u8; HEADER_LENGTH], Refusal> {
        let header = &self.header;
        answered(unsafe { amsulfezd_finish_settings(header.as_ptr(), header.len()) })?;
        Ok(*header)
    }
}
