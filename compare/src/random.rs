//! Numbers from a seed. Every case has its own stream, so that it can be made again by its number alone.
use rand::seq::SliceRandom;
use rand::{Rng, RngCore, SeedableRng};
use rand_chacha::ChaCha8Rng;

pub struct Random(ChaCha8Rng);

impl Random {
    pub fn new(seed: u64, stream: u64, index: u64) -> Random {
        let mut numbers = ChaCha8Rng::seed_from_u64(seed);
        numbers.set_stream(stream << 48 | index);
        Random(numbers)
    }

    pub fn next(&mut self) -> u64 {
        self.0.next_u64()
    }

    /// 0 to n - 1; 0 for 0.
    pub fn below(&mut self, n: usize) -> usize {
        self.0.gen_range(0..n.max(1))
    }

    pub fn between(&mut self, low: i64, high: i64) -> i64 {
        self.0.gen_range(low..=high)
    }

    /// True once in n times; never for 0.
    pub fn one_in(&mut self, n: usize) -> bool {
        n != 0 && self.below(n) == 0
    }

    pub fn pick<T: Copy>(&mut self, of: &[T]) -> T {
        *of.choose(&mut self.0).expect("a list to pick from is not empty")
    }

    pub fn bytes(&mut self, n: usize) -> Vec<u8> {
        let mut bytes = vec![0; n];
        self.0.fill_bytes(&mut bytes);
        bytes
    }

    /// Every size of number alike; often one beside a power of two.
    pub fn wild(&mut self) -> u64 {
        let place = self.below(64) as u32;
        match self.below(4) {
            0 => (1u64 << place).wrapping_add(self.between(-2, 2) as u64),
            1 => u64::MAX - self.below(3) as u64,
            _ => self.next() >> place,
        }
    }
}
