//! A small generator of pseudo-random numbers (splitmix64), so that every run makes the same cases.

pub struct Random(u64);

impl Random {
    pub fn new(seed: u64) -> Random {
        Random(seed)
    }

    fn next(&mut self) -> u64 {
        self.0 = self.0.wrapping_add(0x9E37_79B9_7F4A_7C15);
        let a = (self.0 ^ (self.0 >> 30)).wrapping_mul(0xBF58_476D_1CE4_E5B9);
        let b = (a ^ (a >> 27)).wrapping_mul(0x94D0_49BB_1331_11EB);
        b ^ (b >> 31)
    }

    /// A number from `low` to `high`, both included.
    pub fn from(&mut self, low: u64, high: u64) -> u64 {
        match (high - low).checked_add(1) {
            Some(many) => low + self.next() % many,
            None => self.next(),
        }
    }

    pub fn below(&mut self, many: usize) -> usize {
        self.from(0, many as u64 - 1) as usize
    }

    /// True once in `many` times.
    pub fn once_in(&mut self, many: u64) -> bool {
        self.from(1, many) == 1
    }

    pub fn pick<T: Copy>(&mut self, of: &[T]) -> T {
        of[self.below(of.len())]
    }
}
