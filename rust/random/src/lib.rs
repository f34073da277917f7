//! Random numbers, the same in every run with the same seed.

pub struct Random(pub u64);

impl Random {
    pub fn next(&mut self) -> u64 {
        self.0 = self.0.wrapping_mul(6364136223846793005).wrapping_add(1442695040888963407);
        self.0 >> 33
    }

    pub fn below(&mut self, limit: usize) -> usize {
        self.next() as usize % limit
    }

    /// From low to high, both included.
    pub fn within(&mut self, low: u32, high: u32) -> u32 {
        low + self.below((high - low + 1) as usize) as u32
    }

    pub fn pick<T: Copy>(&mut self, from: &[T]) -> T {
        from[self.below(from.len())]
    }

    /// True once in `times` calls on average.
    pub fn seldom(&mut self, times: usize) -> bool {
        self.below(times) == 0
    }

    pub fn flip(&mut self) -> bool {
        self.seldom(2)
    }

    /// Numbers below a limit of at most 65,536.
    pub fn numbers(&mut self, count: usize, limit: usize) -> Vec<u16> {
        (0..count).map(|_| self.below(limit) as u16).collect()
    }
}
