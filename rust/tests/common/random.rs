//! Numbers that look random and are the same for the same seed: xorshift, with the seed spread by
//! a multiplication so that neighbouring seeds do not begin alike.

pub struct Random(u64);

impl Random {
    pub fn new(seed: u64) -> Random {
        let mut spread = seed.wrapping_add(0x9e37_79b9_7f4a_7c15);
        spread = (spread ^ (spread >> 30)).wrapping_mul(0xbf58_476d_1ce4_e5b9);
        Random((spread ^ (spread >> 27)) | 1)
    }

    pub fn number(&mut self) -> u64 {
        self.0 ^= self.0 << 13;
        self.0 ^= self.0 >> 7;
        self.0 ^= self.0 << 17;
        self.0.wrapping_mul(0x2545_f491_4f6c_dd1d)
    }

    /// From `low` to `high`, both included.
    pub fn within(&mut self, low: u32, high: u32) -> u32 {
        let width = u64::from(high - low) + 1;
        low + (((self.number() >> 32) * width) >> 32) as u32
    }

    pub fn index(&mut self, len: usize) -> usize {
        self.within(0, len as u32 - 1) as usize
    }

    /// True `percent` times of a hundred.
    pub fn chance(&mut self, percent: u32) -> bool {
        self.within(1, 100) <= percent
    }

    pub fn of<T: Copy>(&mut self, choices: &[T]) -> T {
        choices[self.index(choices.len())]
    }

    pub fn byte(&mut self) -> u8 {
        (self.number() >> 56) as u8
    }

    /// Any number, the extremes more often than their share.
    pub fn any(&mut self) -> u32 {
        match self.within(0, 5) {
            0 => self.of(&[0, 1, 2, u32::MAX, u32::MAX - 1, 1 << 31]),
            1 | 2 => self.within(0, 40),
            3 => self.within(0, 5000),
            _ => (self.number() >> 32) as u32,
        }
    }
}
