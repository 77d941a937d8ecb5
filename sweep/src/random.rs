//! Numbers from a fixed seed, the same in every run.

/// The generator splitmix64.
pub struct Random(u64);

impl Random {
    pub fn new(seed: u64) -> Random {
        Random(seed)
    }

    fn next(&mut self) -> u64 {
        self.0 = self.0.wrapping_add(0x9e37_79b9_7f4a_7c15);
        let mut z = self.0;
        z = (z ^ (z >> 30)).wrapping_mul(0xbf58_476d_1ce4_e5b9);
        z = (z ^ (z >> 27)).wrapping_mul(0x94d0_49bb_1331_11eb);
        z ^ (z >> 31)
    }

    /// Sixteen bits.
    pub fn word(&mut self) -> u16 {
        (self.next() >> 48) as u16
    }

    /// A number from low to high, both among them.
    pub fn between(&mut self, low: i16, high: i16) -> i16 {
        self.wide(low.into(), high.into()) as i16
    }

    /// The same with 32 bits.
    pub fn wide(&mut self, low: i32, high: i32) -> i32 {
        let count = (i64::from(high) - i64::from(low) + 1) as u64;
        (i64::from(low) + ((self.next() >> 32) % count) as i64) as i32
    }

    /// True once in n times.
    pub fn once_in(&mut self, n: i16) -> bool {
        self.between(1, n) == 1
    }
}
