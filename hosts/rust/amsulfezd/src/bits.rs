//! Document 01: "fields most significant bit first".

/// At most 16 bytes as a number, most significant first.
pub(crate) fn word_of(bytes: &[u8]) -> u128 {
    bytes
        .iter()
        .fold(0, |word, &byte| word << 8 | u128::from(byte))
}

/// Fields read from the left of a word.
pub(crate) struct Reader {
    word: u128,
    left: u32,
}

impl Reader {
    /// The bits of a word.
    pub(crate) fn new(word: u64) -> Reader {
        Reader {
            word: u128::from(word),
            left: 64,
        }
    }

    /// The bits of at most 16 bytes.
    pub(crate) fn of_bytes(bytes: &[u8]) -> Reader {
        Reader {
            word: word_of(bytes),
            left: 8 * bytes.len() as u32,
        }
    }

    /// The next field, of at most 63 bits.
    pub(crate) fn take(&mut self, width: u32) -> u64 {
        self.left -= width;
        (self.word >> self.left) as u64 & ((1 << width) - 1)
    }

    /// The next field, of at most 8 bits.
    pub(crate) fn take_byte(&mut self, width: u32) -> u8 {
        self.take(width) as u8
    }

    /// The next field of one bit.
    pub(crate) fn take_flag(&mut self) -> bool {
        self.take(1) == 1
    }
}

/// Fields put one after the other from the left.
#[derive(Default)]
pub(crate) struct Writer {
    word: u128,
}

impl Writer {
    /// Puts the lowest `width` bits of a value to the right of what is there.
    pub(crate) fn put(&mut self, width: u32, value: u64) {
        self.word = self.word << width | u128::from(value) & ((1 << width) - 1);
    }

    /// Puts a field of one bit.
    pub(crate) fn put_flag(&mut self, flag: bool) {
        self.put(1, u64::from(flag));
    }

    /// The last 64 bits of what was put, as a number.
    pub(crate) fn word(&self) -> u64 {
        self.word as u64
    }

    /// The last `count` bytes of what was put, most significant first.
    pub(crate) fn bytes(&self, count: usize) -> Vec<u8> {
        self.word.to_be_bytes()[16 - count..].to_vec()
    }
}
