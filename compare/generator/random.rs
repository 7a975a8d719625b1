// The pseudo-random numbers: splitmix64, the same on every machine.

use reference::leaves::pow2_scaled;
use std::cell::Cell;

pub struct Random(Cell<u64>);

impl Random {
    pub fn new(seed: u64) -> Self {
        Random(Cell::new(seed))
    }

    pub fn bits(&self) -> u64 {
        self.0.set(self.0.get().wrapping_add(0x9E3779B97F4A7C15));
        let mut z = self.0.get();
        z = (z ^ (z >> 30)).wrapping_mul(0xBF58476D1CE4E5B9);
        z = (z ^ (z >> 27)).wrapping_mul(0x94D049BB133111EB);
        z ^ (z >> 31)
    }

    /// A whole number from 0 to `n - 1`.
    pub fn below(&self, n: usize) -> usize {
        (self.bits() % n as u64) as usize
    }

    pub fn chance(&self, percent: usize) -> bool {
        self.below(100) < percent
    }

    pub fn pick<T: Copy>(&self, choices: &[T]) -> T {
        choices[self.below(choices.len())]
    }

    /// A whole number from `low` to `high`.
    pub fn between(&self, low: i32, high: i32) -> i32 {
        low + self.below((high - low) as usize + 1) as i32
    }

    /// From 0 to below 1, evenly.
    pub fn unit(&self) -> f64 {
        pow2_scaled((self.bits() >> 11) as f64, -53)
    }

    /// Near 0, of variance 1, bell-shaped.
    pub fn bell(&self) -> f64 {
        (0..12)
            .map(|_| self.unit())
            .fold(-6.0, |total, u| total + u)
    }

    /// Of either sign, the size from `2^low` to below `2^(high + 1)`, each power as likely.
    pub fn sized(&self, low: i32, high: i32) -> f64 {
        let sign = self.pick(&[1.0, -1.0]);
        pow2_scaled(sign * (1.0 + self.unit()), self.between(low, high))
    }

    /// The number or one next to it: its bits are at most so many steps further on or back.
    pub fn near(&self, x: f64, steps: i32) -> f64 {
        let step = self.between(-steps, steps);
        f64::from_bits(x.to_bits().wrapping_add_signed(step.into()))
    }

    /// Any sign and fraction, with one of the lowest exponents: 2047 of them are all finite
    /// numbers, 2048 all bits.
    pub fn of_bits(&self, exponents: usize) -> f64 {
        let exponent = self.below(exponents) as u64;
        f64::from_bits((self.bits() & !(0x7ff << 52)) | (exponent << 52))
    }
}
