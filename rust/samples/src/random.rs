//! A small xorshift generator, so that trials can be repeated exactly.

/// The state of the generator; never 0.
pub struct Xorshift(u64);

impl Xorshift {
    /// Starts a generator from any seed.
    pub fn new(seed: u64) -> Self {
        Xorshift(seed | 1)
    }

    /// Starts a generator from any seed, with the seed's bits well spread.
    pub fn spread(seed: u64) -> Self {
        let mut mixed = seed.wrapping_add(0x9E37_79B9_7F4A_7C15);
        mixed = (mixed ^ (mixed >> 30)).wrapping_mul(0xBF58_476D_1CE4_E5B9);
        mixed = (mixed ^ (mixed >> 27)).wrapping_mul(0x94D0_49BB_1331_11EB);
        Xorshift::new(mixed ^ (mixed >> 31))
    }

    /// Gives the next 64 bits.
    pub fn bits(&mut self) -> u64 {
        self.0 ^= self.0 << 13;
        self.0 ^= self.0 >> 7;
        self.0 ^= self.0 << 17;
        self.0
    }

    /// Gives a number below `limit`, or 0 if the limit is 0.
    pub fn below(&mut self, limit: usize) -> usize {
        ((self.bits() >> 11) as usize)
            .checked_rem(limit)
            .unwrap_or(0)
    }

    /// Gives a number from `low` to `high`, both included.
    pub fn between(&mut self, low: usize, high: usize) -> usize {
        low + self.below(high - low + 1)
    }

    /// Answers yes once in `times`, on average.
    pub fn once_in(&mut self, times: usize) -> bool {
        self.below(times) == 0
    }
}
