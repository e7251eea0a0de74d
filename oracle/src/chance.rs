//! Seeded numbers for the random rows: splitmix64 (add the golden gamma, then mix by two shifts and multiplications).

use crate::patterns::two_to;

pub struct Chance(u64);

impl Chance {
    pub fn new(seed: u64) -> Self {
        Self(seed)
    }
    /// Other numbers from the same seed.
    pub fn beside(&self) -> Self {
        Self(!self.0)
    }
    /// Others again; `beside` of these is another than `beside` of those.
    pub fn apart(&self) -> Self {
        Self(self.0 ^ 1 << 48)
    }
    /// Others than all of these, for one kind of row more.
    pub fn elsewhere(&self) -> Self {
        Self(self.0 ^ 1 << 49)
    }
    pub fn word(&mut self) -> u64 {
        self.0 = self.0.wrapping_add(0x9E37_79B9_7F4A_7C15);
        let mut mixed = self.0;
        mixed = (mixed ^ (mixed >> 30)).wrapping_mul(0xBF58_476D_1CE4_E5B9);
        mixed = (mixed ^ (mixed >> 27)).wrapping_mul(0x94D0_49BB_1331_11EB);
        mixed ^ (mixed >> 31)
    }
    /// 0 to limit - 1; the slight lean of the remainder does not matter here.
    pub fn below(&mut self, limit: u64) -> u64 {
        self.word() % limit
    }
    /// low to high, both reached.
    pub fn between(&mut self, low: i64, high: i64) -> i64 {
        low + self.below((high - low + 1) as u64) as i64
    }
    pub fn pick<T: Copy>(&mut self, from: &[T]) -> T {
        from[self.below(from.len() as u64) as usize]
    }
    /// 0 up to but not including 1, 53 bits.
    pub fn unit(&mut self) -> f64 {
        (self.word() >> 11) as f64 / (1u64 << 53) as f64
    }
    /// A power of two from 2^low to 2^high times 1 up to but not including 2, every digit drawn.
    pub fn scaled(&mut self, low: i32, high: i32) -> f64 {
        let power = self.between(low as i64, high as i64) as i32;
        f64::from_bits(two_to(power).to_bits() | (self.word() >> 12))
    }
    /// 0 to 1, evenly, but with every digit drawn: `unit` has none below 2^-53, where square and pulse part ways.
    pub fn dense(&mut self) -> f64 {
        let power = -1 - self.word().leading_zeros() as i32;
        self.scaled(power, power)
    }
}
