//! Random inputs for comparisons: trees, tables, rooms, paths and texts of a profile, all from a seed.

mod faults;
mod layout;
mod misplaced;
mod shapes;
mod spelling;
mod spots;
mod tables;
mod texts;
mod trees;
mod words;

pub use faults::{faulty, Faulty, FAULTS};
pub use layout::{layout, listing, Before, Layout, Line, What};
pub use shapes::{changed, shaped, strewn, Change, Shape, CHANGES, SHAPES};
pub use spelling::{recased, respelled};
pub use tables::{altered, damaged, entry, path, Damage, Damaged, DAMAGES};
pub use texts::{crowd, hurt, padded, soup};
pub use trees::{edited, file, name, three, tree, Three};

use crate::reconcile::{Outcome, Rooms};
use crate::table::{MOST_ROWS, ROW};

/// A small generator of numbers (splitmix64): the same seed gives the same numbers everywhere.
#[derive(Clone, Debug)]
pub struct Random {
    state: u64,
}

impl Random {
    /// A generator that starts from a seed.
    pub fn new(seed: u64) -> Self {
        Random { state: seed }
    }

    /// The next 64 bits.
    pub fn bits(&mut self) -> u64 {
        self.state = self.state.wrapping_add(0x9e37_79b9_7f4a_7c15);
        let mut z = self.state;
        z = (z ^ (z >> 30)).wrapping_mul(0xbf58_476d_1ce4_e5b9);
        z = (z ^ (z >> 27)).wrapping_mul(0x94d0_49bb_1331_11eb);
        z ^ (z >> 31)
    }

    /// A word.
    pub fn word(&mut self) -> u32 {
        (self.bits() >> 32) as u32
    }

    /// A byte.
    pub fn byte(&mut self) -> u8 {
        (self.bits() >> 56) as u8
    }

    /// A number from 0 to one below the given, which is not 0.
    pub fn below(&mut self, bound: usize) -> usize {
        (self.bits() % bound as u64) as usize
    }

    /// True once in so many times.
    pub fn one_in(&mut self, times: usize) -> bool {
        self.below(times) == 0
    }

    /// One of the given, of which there is at least one.
    pub fn pick<T: Clone>(&mut self, from: &[T]) -> T {
        from[self.below(from.len())].clone()
    }

    /// Puts the given in a random order.
    pub fn shuffle<T>(&mut self, items: &mut [T]) {
        for i in (1..items.len()).rev() {
            items.swap(i, self.below(i + 1));
        }
    }
}

/// A room near the exact one for so many units of so many words (or bytes) each.
pub fn room(rng: &mut Random, count: usize, unit: usize) -> usize {
    let exact = count * unit;
    match rng.below(8) {
        0 => exact.saturating_sub(1),
        1 => exact.saturating_sub(unit),
        2 => exact + 1,
        3 => exact + unit - 1,
        4 => exact + unit + rng.below(4 * unit),
        5 => rng.below(exact + 1),
        _ => exact,
    }
}

/// Rooms near the exact ones of an outcome; most often at least one is too small or all fit.
pub fn rooms(rng: &mut Random, outcome: &Outcome) -> Rooms {
    let counts = outcome.counts().map(|count| count as usize);
    let short = rng.below(5);
    let mut one = |side: usize, unit: usize| match side == short {
        true => room(rng, counts[side], unit),
        false => counts[side] * unit + rng.below(3 * unit),
    };
    Rooms {
        archive: one(0, ROW),
        left: one(1, ROW),
        right: one(2, ROW),
        list: one(3, 3),
    }
}

/// A seeded round of a comparison: rows of a tree to start from, small ones most often.
pub fn size(rng: &mut Random) -> usize {
    match rng.below(40) {
        0 => 200 + rng.below(400),
        1..=8 => 20 + rng.below(60),
        9..=24 => 6 + rng.below(14),
        _ => 1 + rng.below(6),
    }
    .min(MOST_ROWS)
}
