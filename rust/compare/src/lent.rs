//! Buffers to lend, with marked room around them.

use std::fmt::Debug;

/// Words or bytes on either side of a lent buffer.
const AROUND: usize = 48;

/// A word or a byte that can mark its place.
pub trait Mark: Copy + PartialEq + Debug {
    /// The mark of a place: those of neighbours differ.
    fn mark(place: usize) -> Self;
}

impl Mark for u32 {
    fn mark(place: usize) -> Self {
        (place as u32).wrapping_mul(0x9E37_79B1) | 1
    }
}

impl Mark for u8 {
    fn mark(place: usize) -> Self {
        (place as u8).wrapping_mul(0x9D) ^ (place >> 8) as u8
    }
}

/// A buffer to lend. Each place in it and around it holds its mark at first.
#[derive(Clone, Debug, PartialEq)]
pub struct Lent<T> {
    all: Vec<T>,
}

impl<T: Mark> Lent<T> {
    /// A buffer of so many words or bytes.
    pub fn new(room: usize) -> Self {
        Lent {
            all: (0..room + 2 * AROUND).map(T::mark).collect(),
        }
    }

    /// The buffer itself, to lend.
    pub fn room(&mut self) -> &mut [T] {
        let end = self.all.len() - AROUND;
        &mut self.all[AROUND..end]
    }

    /// What the buffer holds.
    pub fn inside(&self) -> &[T] {
        &self.all[AROUND..self.all.len() - AROUND]
    }

    /// The first place outside the buffer whose mark is gone, counted from the buffer's start.
    pub fn touched_outside(&self) -> Option<isize> {
        let end = self.all.len() - AROUND;
        let outside = (0..AROUND).chain(end..self.all.len());
        let mut gone = outside.filter(|&place| self.all[place] != T::mark(place));
        gone.next().map(|place| place as isize - AROUND as isize)
    }
}
