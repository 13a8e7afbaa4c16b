//! The same calls over lent buffers, so that what is left in every buffer can be compared too.

use crate::answer::Answer;
use crate::moves::Slots;
use crate::name::Profile;
use crate::reconcile::{Outcome, Rooms};
use crate::table::ROW;

/// The buffers lent to a reconciliation.
#[derive(Clone, Debug, PartialEq, Eq)]
pub struct Buffers {
    /// For the new archive.
    pub archive: Vec<u32>,
    /// For the new left tree.
    pub left: Vec<u32>,
    /// For the new right tree.
    pub right: Vec<u32>,
    /// For the list.
    pub list: Vec<u32>,
    /// The tally: kinds 1, 2 and 3.
    pub tally: [u32; 3],
}

impl Buffers {
    /// Buffers of the given rooms, every word the given one, the tally too.
    pub fn filled(rooms: Rooms, word: u32) -> Self {
        Buffers {
            archive: vec![word; rooms.archive],
            left: vec![word; rooms.left],
            right: vec![word; rooms.right],
            list: vec![word; rooms.list],
            tally: [word; 3],
        }
    }

    /// The room of each buffer.
    pub fn rooms(&self) -> Rooms {
        Rooms {
            archive: self.archive.len(),
            left: self.left.len(),
            right: self.right.len(),
            list: self.list.len(),
        }
    }
}

/// Reconciles into lent buffers; accepted, it gives the four counts.
pub fn reconcile(
    profile: Profile,
    archive: &[u32],
    left: &[u32],
    right: &[u32],
    lent: &mut Buffers,
) -> Answer<[u32; 4]> {
    let outcome: Outcome = crate::reconcile(profile, archive, left, right, lent.rooms())?;
    overwrite(&mut lent.archive, &outcome.archive);
    overwrite(&mut lent.left, &outcome.left);
    overwrite(&mut lent.right, &outcome.right);
    overwrite(&mut lent.list, &outcome.list_words());
    lent.tally = outcome.tally;
    Ok(outcome.counts())
}

/// Carries out a move into a lent table; accepted, it gives the rows of the result.
pub fn make_move(
    profile: Profile,
    target: &[u32],
    source: &[u32],
    names: &Slots,
    depth: u32,
    lent: &mut [u32],
) -> Answer<usize> {
    let result = crate::make_move(profile, target, source, names, depth, lent.len())?;
    overwrite(lent, &result);
    Ok(result.len() / ROW)
}

/// Writes a listing into lent bytes; accepted, it gives the number of bytes.
pub fn write(profile: Profile, table: &[u32], lent: &mut [u8]) -> Answer<usize> {
    let text = crate::write(profile, table, lent.len())?;
    overwrite(lent, &text);
    Ok(text.len())
}

/// Reads a listing into a lent table, zeroed first; accepted, it gives the number of rows.
pub fn read(profile: Profile, text: &[u8], lent: &mut [u32]) -> Answer<usize> {
    lent.fill(0);
    let table = crate::read(profile, text, lent.len())?;
    overwrite(lent, &table);
    Ok(table.len() / ROW)
}

/// Only the result's own length is written; what is past it stays.
fn overwrite<T: Copy>(lent: &mut [T], result: &[T]) {
    lent[..result.len()].copy_from_slice(result);
}
