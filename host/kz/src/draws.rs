//! Draws for the sample days, so that they are the same on every machine.

use std::ops::RangeInclusive;

/// Draws that the seed determines: Marsaglia's xorshift with 64 bits.
pub struct Draws {
    state: u64,
}

impl Draws {
    /// The draws of a seed, which is not 0.
    pub fn new(seed: u64) -> Draws {
        Draws { state: seed }
    }

    /// A number of this range.
    pub fn within(&mut self, range: &RangeInclusive<u32>) -> u32 {
        for shift in [13, -7, 17_i32] {
            let shifted = if shift > 0 { self.state << shift } else { self.state >> -shift };
            self.state ^= shifted;
        }
        let choices = u64::from(range.end() - range.start()) + 1;
        range.start() + ((self.state >> 20) % choices) as u32
    }

    /// One of these numbers.
    pub fn one_of(&mut self, choices: &[u32]) -> u32 {
        choices[self.within(&(0..=choices.len() as u32 - 1)) as usize]
    }
}
