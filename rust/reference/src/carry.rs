//! The rows that a list entry carries.

use crate::answer::{LEFT, RIGHT};
use crate::name::Profile;
use crate::reconcile::{LEFT_GETS, RIGHT_GETS};
use crate::table::{check_all, ROW};

/// A part of one of the two tables.
#[derive(Clone, Copy, Debug, PartialEq, Eq)]
pub struct Part {
    /// Side of the table: left or right.
    pub side: u32,
    /// The first word.
    pub start: usize,
    /// The number of words, never 0.
    pub words: usize,
}

/// The rows to carry for an entry, or nothing.
pub fn carried(
    profile: Profile,
    left: &[u32],
    right: &[u32],
    kind: u32,
    left_row: u32,
    right_row: u32,
) -> Option<Part> {
    let (side, table, row) = match kind {
        LEFT_GETS => (RIGHT, right, right_row as usize),
        RIGHT_GETS => (LEFT, left, left_row as usize),
        _ => return None,
    };
    check_all(profile, [(LEFT, left), (RIGHT, right)]).ok()?;
    if row >= table.len() / ROW {
        return None;
    }
    let depths: Vec<u32> = table.chunks(ROW).map(|row| row[0]).collect();
    let after = &depths[row + 1..];
    let beneath = after
        .iter()
        .take_while(|&&depth| depth > depths[row])
        .count();
    Some(Part {
        side,
        start: row * ROW,
        words: (1 + beneath) * ROW,
    })
}
