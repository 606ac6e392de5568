//! Numbers that look random, always the same ones for a seed.

/// The state of the numbers.
pub struct Random(u64);

impl Random {
    pub fn new(seed: u64) -> Random {
        Random(seed.wrapping_mul(0x9E37_79B9_7F4A_7C15) | 1)
    }

    pub fn next(&mut self) -> u64 {
        self.0 ^= self.0 << 13;
        self.0 ^= self.0 >> 7;
        self.0 ^= self.0 << 17;
        self.0.wrapping_mul(0x2545_F491_4F6C_DD1D) >> 16
    }

    /// From 0 to below the end.
    pub fn below(&mut self, end: usize) -> usize {
        (self.next() % end as u64) as usize
    }

    /// From 1 to the end.
    pub fn up_to(&mut self, end: u32) -> u32 {
        1 + self.below(end as usize) as u32
    }

    /// Once in so many times.
    pub fn once_in(&mut self, times: usize) -> bool {
        self.below(times) == 0
    }

    /// A word that is likely to be near an end of some range.
    pub fn word(&mut self) -> u32 {
        let near = self.below(20) as u32;
        match self.below(8) {
            0 => u32::MAX - near,
            1 => 32_750 + near,
            2 => 32_760u32.wrapping_neg().wrapping_sub(near),
            3 => self.next() as u32,
            4 => 1 << self.below(32),
            _ => near,
        }
    }
}
