//! Random programs, lines, records and cases, the same for the same seed.
//!
//! Sound ones, spoilt ones and garbage: they are there to find where two
//! implementations differ, so every stop must come up often.

pub mod cases;
pub mod damage;
pub mod edits;
pub mod faults;
pub mod forms;
pub mod lines;
pub mod pages;
pub mod records;
pub mod sessions;
pub mod tables;
pub mod texts;
pub mod typed;

/// A small generator of random numbers (splitmix64).
#[derive(Clone, Debug)]
pub struct Random {
    state: u64,
}

/// How large the things made are. Small ones are for slow evaluators.
#[derive(Clone, Copy, Debug, PartialEq, Eq)]
pub enum Size {
    Small,
    Full,
}

impl Random {
    pub fn new(seed: u64) -> Random {
        Random { state: seed }
    }

    fn next(&mut self) -> u64 {
        self.state = self.state.wrapping_add(0x9e37_79b9_7f4a_7c15);
        let mixed = (self.state ^ (self.state >> 30)).wrapping_mul(0xbf58_476d_1ce4_e5b9);
        let mixed = (mixed ^ (mixed >> 27)).wrapping_mul(0x94d0_49bb_1331_11eb);
        mixed ^ (mixed >> 31)
    }

    /// A number below `limit`, which is not 0.
    pub fn below(&mut self, limit: usize) -> usize {
        (self.next() % limit as u64) as usize
    }

    /// A number from `low` to `high`, both included.
    pub fn between(&mut self, low: usize, high: usize) -> usize {
        low + self.below(high - low + 1)
    }

    /// True this many times in a hundred.
    pub fn percent(&mut self, chance: usize) -> bool {
        self.below(100) < chance
    }

    pub fn byte(&mut self) -> u8 {
        self.next() as u8
    }

    pub fn pick<'a, T>(&mut self, list: &'a [T]) -> &'a T {
        &list[self.below(list.len())]
    }

    /// The index of one of these weights, each as often as it weighs.
    pub fn weighted(&mut self, weights: &[usize]) -> usize {
        let mut left = self.below(weights.iter().sum());
        for (index, &weight) in weights.iter().enumerate() {
            if left < weight {
                return index;
            }
            left -= weight;
        }
        0
    }

    /// A value near the places where something changes, or any.
    pub fn value(&mut self) -> i16 {
        match self.below(6) {
            0 => *self.pick(&[0, 1, -1, 2, 255, 256, 32_767, -32_768, -32_767]),
            1 => self.next() as i16,
            _ => self.between(0, 24) as i16 - 4,
        }
    }
}
