//! Generator with a fixed seed (splitmix64), for tests and benchmark.

pub const SEED: u64 = 0x4D45_4C54_5553_4B31;

pub struct Random(u64);

impl Random {
    pub fn new(seed: u64) -> Random {
        Random(seed)
    }

    pub fn next(&mut self) -> u64 {
        self.0 = self.0.wrapping_add(0x9E37_79B9_7F4A_7C15);
        let mut z = self.0;
        z = (z ^ (z >> 30)).wrapping_mul(0xBF58_476D_1CE4_E5B9);
        z = (z ^ (z >> 27)).wrapping_mul(0x94D0_49BB_1331_11EB);
        z ^ (z >> 31)
    }

    /// 0 to n - 1.
    pub fn below(&mut self, n: usize) -> usize {
        (self.next() % n as u64) as usize
    }

    /// lo to hi, both included.
    pub fn within(&mut self, lo: usize, hi: usize) -> usize {
        lo + self.below(hi - lo + 1)
    }

    /// lo, hi, or any between.
    pub fn edge(&mut self, lo: usize, hi: usize) -> usize {
        match self.below(3) {
            0 => lo,
            1 => hi,
            _ => self.within(lo, hi),
        }
    }

    /// True once in n.
    pub fn one_in(&mut self, n: usize) -> bool {
        self.below(n) == 0
    }

    pub fn pick<T: Copy>(&mut self, from: &[T]) -> T {
        from[self.below(from.len())]
    }
}

/// The seed of one case of one test.
pub fn case_seed(test: u64, case: u64) -> u64 {
    Random::new(SEED ^ (test << 48) ^ case).next()
}
