//! Random numbers of a seed: the generator of the fixed lists, and what inputs are drawn from.

use crate::digest::next;
use std::cell::Cell;

/// Drawing changes the state behind a shared reference, so that draws can stand in each other's arguments.
pub struct Random(Cell<u64>);

impl Random {
    /// Each kind of input has its own numbers for each seed.
    pub fn new(kind: &str, seed: u64) -> Random {
        let start = kind.bytes().fold(88172645463325252, |sum, byte| next(sum ^ byte as u64));
        let random = Random(Cell::new(next(start ^ seed.wrapping_mul(0x9e37_79b9_7f4a_7c15)).max(1)));
        (0..8).for_each(|_| random.step());
        random
    }

    fn step(&self) {
        self.0.set(next(self.0.get()));
    }

    pub fn word(&self) -> u64 {
        self.step();
        self.0.get().wrapping_mul(0x2545_f491_4f6c_dd1d)
    }

    pub fn below(&self, most: u64) -> u64 {
        (self.word() >> 20) % most
    }

    pub fn index(&self, most: usize) -> usize {
        self.below(most as u64) as usize
    }

    pub fn one_in(&self, most: u64) -> bool {
        self.below(most) == 0
    }

    pub fn pick<T: Copy>(&self, from: &[T]) -> T {
        from[self.index(from.len())]
    }

    /// From 0 up to 1.
    pub fn unit(&self) -> f32 {
        (self.word() >> 40) as f32 / 16777216.0
    }

    pub fn between(&self, low: f32, high: f32) -> f32 {
        low + (high - low) * self.unit()
    }

    /// Any bit pattern.
    pub fn any(&self) -> f32 {
        f32::from_bits((self.word() >> 32) as u32)
    }

    /// Any finite one.
    pub fn finite(&self) -> f32 {
        let x = self.any();
        if x.is_finite() { x } else { 0.0 }
    }

    /// A float at most two steps from x.
    pub fn near(&self, x: f32) -> f32 {
        f32::from_bits(x.to_bits().wrapping_add(self.below(5) as u32).wrapping_sub(2))
    }
}
