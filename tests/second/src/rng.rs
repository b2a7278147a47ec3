//! A small generator of random numbers (splitmix64), so that a seed names a
//! sheet for good.

use std::ops::RangeInclusive;

pub struct Rng(u64);

impl Rng {
    pub fn new(seed: u64) -> Rng {
        Rng(seed)
    }

    pub fn draw(&mut self) -> u64 {
        self.0 = self.0.wrapping_add(0x9E37_79B9_7F4A_7C15);
        let mut mixed = self.0;
        mixed = (mixed ^ mixed >> 30).wrapping_mul(0xBF58_476D_1CE4_E5B9);
        mixed = (mixed ^ mixed >> 27).wrapping_mul(0x94D0_49BB_1331_11EB);
        mixed ^ mixed >> 31
    }

    /// A number below `bound`, which is at least 1. The bounds used are so
    /// small against 2 to the power 64 that the remainder's bias is nothing.
    pub fn below(&mut self, bound: usize) -> usize {
        (self.draw() % bound as u64) as usize
    }

    pub fn between(&mut self, range: RangeInclusive<i16>) -> i16 {
        let width = i32::from(*range.end()) - i32::from(*range.start()) + 1;
        let offset = self.below(width as usize) as i32;
        (i32::from(*range.start()) + offset) as i16
    }

    pub fn byte(&mut self) -> u8 {
        self.draw() as u8
    }

    /// True so many times in a hundred.
    pub fn chance(&mut self, percent: usize) -> bool {
        self.below(100) < percent
    }

    /// One of the choices, if there are any.
    pub fn pick<T: Copy>(&mut self, choices: &[T]) -> Option<T> {
        if choices.is_empty() {
            None
        } else {
            Some(choices[self.below(choices.len())])
        }
    }

    pub fn one_of<T: Copy, const N: usize>(&mut self, choices: [T; N]) -> T {
        choices[self.below(N)]
    }

    /// An index, each as often as its weight says.
    pub fn weighted<const N: usize>(&mut self, weights: [usize; N]) -> usize {
        let mut left = self.below(weights.iter().sum());
        for (at, weight) in weights.into_iter().enumerate() {
            if left < weight {
                return at;
            }
            left -= weight;
        }
        0
    }
}
