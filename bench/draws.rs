//! Numbers that look drawn, and are the same in each run.
#![allow(dead_code)]

pub struct Draws(pub u64);

impl Draws {
    /// A number below a bound.
    pub fn below(&mut self, bound: u64) -> u64 {
        self.0 = self
            .0
            .wrapping_mul(6364136223846793005)
            .wrapping_add(1442695040888963407);
        (self.0 >> 33) % bound
    }
}

/// The numbers below a bound, shuffled.
pub fn shuffled(bound: u64) -> Vec<u64> {
    let mut numbers: Vec<u64> = (0..bound).collect();
    let mut draws = Draws(1);
    for i in (1..numbers.len()).rev() {
        numbers.swap(i, draws.below(i as u64 + 1) as usize);
    }
    numbers
}
