//! splitmix64 (Steele, Lea and Flood, 2014): the state goes up by a fixed odd number and each word is a mix of it, so a
//! seed gives the same words on every machine. `below` takes a remainder; for the bounds used here that is fair enough.

const STEP: u64 = 0x9e37_79b9_7f4a_7c15;

#[derive(Debug, Clone)]
pub struct Seed {
    state: u64,
}

impl Seed {
    pub fn new(seed: u64) -> Self {
        Seed { state: seed }
    }

    /// The generator of the item with this index: items can be made again one by one.
    pub fn of_index(seed: u64, index: u64) -> Self {
        let mut of_seed = Seed::new(seed);
        let mut of_index = Seed::new(of_seed.word() ^ index);
        Seed::new(of_index.word())
    }

    /// The next 64 bits.
    pub fn word(&mut self) -> u64 {
        self.state = self.state.wrapping_add(STEP);
        let mut z = self.state;
        z = (z ^ (z >> 30)).wrapping_mul(0xbf58_476d_1ce4_e5b9);
        z = (z ^ (z >> 27)).wrapping_mul(0x94d0_49bb_1331_11eb);
        z ^ (z >> 31)
    }

    /// A number from 0 to `bound` - 1.
    pub fn below(&mut self, bound: u64) -> u64 {
        self.word() % bound
    }

    /// A number from `low` to `high`, both included.
    pub fn between(&mut self, low: u64, high: u64) -> u64 {
        low + self.below(high - low + 1)
    }

    pub fn byte(&mut self) -> u8 {
        self.below(256) as u8
    }

    /// True once in `n` times.
    pub fn one_in(&mut self, n: u64) -> bool {
        self.below(n) == 0
    }

    pub fn coin(&mut self) -> bool {
        self.one_in(2)
    }

    /// One of the values.
    pub fn pick<T: Copy>(&mut self, values: &[T]) -> T {
        values[self.below(values.len() as u64) as usize]
    }

    /// Puts the values into another order.
    pub fn shuffle<T>(&mut self, values: &mut [T]) {
        for i in (1..values.len()).rev() {
            let j = self.below(i as u64 + 1) as usize;
            values.swap(i, j);
        }
    }
}

#[cfg(test)]
mod tests {
    use super::*;

    #[test]
    fn the_published_words_of_seed_1234567() {
        let mut seed = Seed::new(1_234_567);
        assert_eq!(seed.word(), 6_457_827_717_110_365_317);
        assert_eq!(seed.word(), 3_203_168_211_198_807_973);
        assert_eq!(seed.word(), 9_817_491_932_198_370_423);
    }

    #[test]
    fn an_index_has_its_own_words() {
        let first = Seed::of_index(1, 0).word();
        assert_eq!(first, Seed::of_index(1, 0).word());
        assert_ne!(first, Seed::of_index(1, 1).word());
        assert_ne!(first, Seed::of_index(2, 0).word());
    }
}
