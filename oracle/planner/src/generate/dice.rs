//! Chance, from a seed.

use rand::{Rng, RngCore, SeedableRng};
use rand_chacha::ChaCha8Rng;

pub struct Dice(ChaCha8Rng);

impl Dice {
    /// The dice of one case.
    pub fn new(seed: u64, number: u64) -> Self {
        let mut rng = ChaCha8Rng::seed_from_u64(seed);
        rng.set_stream(number);
        Dice(rng)
    }

    pub fn word(&mut self) -> u64 {
        self.0.next_u64()
    }

    /// A whole number from `low` to `high`, both included.
    pub fn whole(&mut self, low: i64, high: i64) -> i64 {
        self.0.gen_range(low..=high)
    }

    pub fn count(&mut self, low: usize, high: usize) -> usize {
        self.0.gen_range(low..=high)
    }

    pub fn number(&mut self, low: f64, high: f64) -> f64 {
        self.0.gen_range(low..high)
    }

    /// A number whose size is spread evenly over powers of ten.
    pub fn spread(&mut self, least: f64, most: f64) -> f64 {
        10f64.powf(self.number(least.log10(), most.log10()))
    }

    /// True in one case of `n`.
    pub fn one_in(&mut self, n: u32) -> bool {
        self.0.gen_ratio(1, n)
    }

    pub fn pick<T: Copy>(&mut self, from: &[T]) -> T {
        from[self.0.gen_range(0..from.len())]
    }

    pub fn sign(&mut self) -> f64 {
        self.pick(&[-1.0, 1.0])
    }
}
