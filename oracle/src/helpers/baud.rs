//! Document 01, "Time": the baud table and the one conversion, which document 02, P3, rounds up.

use crate::time::Duration;

/// The rates, in the order of their codes 0 to 10.
#[derive(Debug, Clone, Copy, PartialEq, Eq)]
pub enum Baudrate {
    B9600,
    B19200,
    B31250,
    B45450,
    B93750,
    B187500,
    B500000,
    B1500000,
    B3000000,
    B6000000,
    B12000000,
}

/// Each rate with its number of bits in a second. The place in the table is the code.
pub const BAUDRATES: [(Baudrate, u64); 11] = [
    (Baudrate::B9600, 9600),
    (Baudrate::B19200, 19200),
    (Baudrate::B31250, 31250),
    (Baudrate::B45450, 45450),
    (Baudrate::B93750, 93750),
    (Baudrate::B187500, 187500),
    (Baudrate::B500000, 500000),
    (Baudrate::B1500000, 1500000),
    (Baudrate::B3000000, 3000000),
    (Baudrate::B6000000, 6000000),
    (Baudrate::B12000000, 12000000),
];

impl Baudrate {
    /// The rate with this code; `None` above 10.
    pub fn of_code(code: u8) -> Option<Baudrate> {
        BAUDRATES.get(usize::from(code)).map(|(rate, _)| *rate)
    }

    pub fn code(self) -> usize {
        self as usize
    }

    /// "Time of b bits = b × 1,000,000 / baud", and of document 02, P3: "Times worked out from bits are to be rounded up".
    /// So a microsecond that has begun counts as a whole one.
    pub fn bits_to_time(self, bits: u32) -> Duration {
        let (product, rate) = (u64::from(bits) * 1_000_000, BAUDRATES[self.code()].1);
        let begun = u64::from(product % rate != 0);
        Duration::from_micros(product / rate + begun)
    }
}

/// "Least slot bits: 100 for codes 0 to 5, then 200, 300, 400, 600, 1000."
pub const LEAST_SLOT_BITS: [u16; 11] = [100, 100, 100, 100, 100, 100, 200, 300, 400, 600, 1000];
