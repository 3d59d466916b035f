//! Random numbers of the generator: SplitMix64 (Steele, Lea and Flood, OOPSLA 2014).

/// A stream of numbers; the same seed and name give the same stream.
pub struct Rng(u64);

/// The golden-ratio step of SplitMix64.
const STEP: u64 = 0x9E37_79B9_7F4A_7C15;

impl Rng {
    /// The stream of the list `name` in the run of `seed`. The name's FNV-1a hash goes in, so that
    /// a list does not depend on the lists before it.
    pub fn new(seed: u64, name: &str) -> Rng {
        let mut hash: u64 = 0xCBF2_9CE4_8422_2325;
        for byte in name.bytes() {
            hash = (hash ^ u64::from(byte)).wrapping_mul(0x0000_0100_0000_01B3);
        }
        let mut seeded = Rng(seed);
        Rng(seeded.word() ^ hash)
    }

    /// The next 64 bits.
    pub fn word(&mut self) -> u64 {
        self.0 = self.0.wrapping_add(STEP);
        let mut word = self.0;
        word = (word ^ (word >> 30)).wrapping_mul(0xBF58_476D_1CE4_E5B9);
        word = (word ^ (word >> 27)).wrapping_mul(0x94D0_49BB_1331_11EB);
        word ^ (word >> 31)
    }

    /// A number from 0 to `bound` - 1; `bound` is above 0.
    pub fn below(&mut self, bound: usize) -> usize {
        (self.word() % bound as u64) as usize
    }

    /// A number from `low` to `high`, both included.
    pub fn between(&mut self, low: usize, high: usize) -> usize {
        low + self.below(high - low + 1)
    }

    /// True `percent` times of a hundred.
    pub fn chance(&mut self, percent: usize) -> bool {
        self.below(100) < percent
    }

    /// One of `from`, which is not empty.
    pub fn pick<T: Clone>(&mut self, from: &[T]) -> T {
        from[self.below(from.len())].clone()
    }

    /// `count` random bytes.
    pub fn bytes(&mut self, count: usize) -> Vec<u8> {
        let mut bytes = Vec::with_capacity(count + 8);
        while bytes.len() < count {
            bytes.extend_from_slice(&self.word().to_le_bytes());
        }
        bytes.truncate(count);
        bytes
    }
}

#[cfg(test)]
mod tests {
    use super::Rng;

    #[test]
    fn gives_the_published_stream_of_seed_0() {
        let mut rng = Rng(0);
        assert_eq!(rng.word(), 0xE220_A839_7B1D_CDAF);
        assert_eq!(rng.word(), 0x6E78_9E6A_A1B9_65F4);
    }

    #[test]
    fn names_part_the_streams() {
        assert_eq!(Rng::new(1, "a").word(), Rng::new(1, "a").word());
        assert_ne!(Rng::new(1, "a").word(), Rng::new(1, "b").word());
        assert_ne!(Rng::new(1, "a").word(), Rng::new(2, "a").word());
    }
}
