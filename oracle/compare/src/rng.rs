//! A small generator, so that a seed makes a run repeatable.
pub struct Rng(pub u64);

impl Rng {
    pub fn next(&mut self) -> u64 {
        self.0 ^= self.0 << 13;
        self.0 ^= self.0 >> 7;
        self.0 ^= self.0 << 17;
        self.0.wrapping_mul(0x2545_F491_4F6C_DD1D)
    }

    pub fn below(&mut self, m: usize) -> usize {
        (self.next() >> 33) as usize % m
    }

    pub fn of<'a, T>(&mut self, xs: &'a [T]) -> &'a T {
        let i = self.below(xs.len());
        &xs[i]
    }

    /// A code that size n takes.
    pub fn code(&mut self, n: usize) -> u16 {
        let kind = self.below(15) as u16;
        let turn = 1 + self.below(3) as u16;
        let width = if (6..12).contains(&kind) { 1 + self.below(n) as u16 } else { 0 };
        width * 64 + kind * 4 + turn
    }

    pub fn codes(&mut self, n: usize, count: usize) -> Vec<u16> {
        (0..count).map(|_| self.code(n)).collect()
    }
}
