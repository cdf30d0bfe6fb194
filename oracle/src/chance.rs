//! Numbers by chance, the same for the same seed.

/// SplitMix64.
pub struct Chance(pub u64);

impl Chance {
    /// Any number.
    pub fn any(&mut self) -> u64 {
        self.0 = self.0.wrapping_add(0x9E37_79B9_7F4A_7C15);
        let mut z = self.0;
        z = (z ^ (z >> 30)).wrapping_mul(0xBF58_476D_1CE4_E5B9);
        z = (z ^ (z >> 27)).wrapping_mul(0x94D0_49BB_1331_11EB);
        z ^ (z >> 31)
    }

    /// A number below `end`.
    pub fn below(&mut self, end: u64) -> u64 {
        self.any() % end
    }

    /// Once in so many times.
    pub fn once_in(&mut self, times: u64) -> bool {
        self.below(times) == 0
    }

    /// One of the list.
    pub fn of<T: Copy>(&mut self, list: &[T]) -> T {
        list[self.below(list.len() as u64) as usize]
    }

    /// A number of any size: small ones, edges of bytes and any.
    pub fn number(&mut self) -> u64 {
        match self.below(4) {
            0 => self.below(16),
            1 => edge(self.below(9)).wrapping_add(self.below(5)).wrapping_sub(2),
            2 => self.any() >> self.below(64),
            _ => self.of(&[0, 1, 65_535, 65_536, 4_294_967_295, 4_294_967_296, 1 << 63, u64::MAX - 7, u64::MAX]),
        }
    }
}

/// The first number that needs more than so many bytes; 2^64 wraps to 0.
pub fn edge(bytes: u64) -> u64 {
    if bytes < 8 {
        1 << (8 * bytes)
    } else {
        0
    }
}
