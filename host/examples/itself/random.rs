//! Numbers from a seed: the same in every run.

pub struct Random(pub u64);

impl Random {
    pub fn next(&mut self) -> u64 {
        self.0 = self.0.wrapping_add(0x9E37_79B9_7F4A_7C15);
        let mut x = self.0;
        x = (x ^ (x >> 30)).wrapping_mul(0xBF58_476D_1CE4_E5B9);
        x = (x ^ (x >> 27)).wrapping_mul(0x94D0_49BB_1331_11EB);
        x ^ (x >> 31)
    }

    pub fn below(&mut self, n: usize) -> usize {
        (self.next() % n as u64) as usize
    }

    /// Once in so many times.
    pub fn once_in(&mut self, n: usize) -> bool {
        self.below(n) == 0
    }

    pub fn pick<T: Copy>(&mut self, items: &[T]) -> T {
        items[self.below(items.len())]
    }

    /// A coordinate of the grid: near its middle, at its ends, at the ends of 32 bits, or anywhere.
    pub fn coordinate(&mut self, precision: u8) -> i64 {
        let half = 1i64 << (precision - 1);
        match self.below(6) {
            0 => self.pick(&[i64::from(i32::MIN), i64::from(i32::MAX), -half, half, half - 1, 0, -1]),
            1 => i64::from(self.next() as i32),
            _ => self.below(2 * half.min(1 << 20) as usize + 1) as i64 - half.min(1 << 20),
        }
    }
}
