//! Damaged tables, paths for moves, and list entries.

use super::spelling::recased;
use super::{trees, Random};
use crate::moves::{slots, Slots};
use crate::name::{Name, Profile};
use crate::table::{name_bytes, name_words, DEEPEST, MOST_ROWS, NO_ROW, ROW};
use crate::tree::{Node, Path};

/// Which rule of a table is broken.
#[derive(Clone, Copy, Debug, PartialEq, Eq)]
pub enum Damage {
    /// The length is not 20 words times 1 to 4,096.
    Length,
    /// Row 0 is no root's.
    Root,
    /// A depth is 0, above 16, a step of two, or a step beneath a file.
    Depth,
    /// A kind is neither 0 nor 1.
    Kind,
    /// A name is empty, "." or "..", or has a slash or a zero before its end.
    Name,
    /// A sibling comes before the one before it.
    Order,
    /// A sibling has the name of the one before it, in another letter case if case is ignored.
    Twin,
    /// A folder has something in words 10 to 19.
    FolderWords,
}

/// Every kind of damage.
pub const DAMAGES: [Damage; 8] = [
    Damage::Length,
    Damage::Root,
    Damage::Depth,
    Damage::Kind,
    Damage::Name,
    Damage::Order,
    Damage::Twin,
    Damage::FolderWords,
];

/// A damaged table, and the number and the place that are due for it.
#[derive(Clone, Debug, PartialEq, Eq)]
pub struct Damaged {
    /// The table.
    pub table: Vec<u32>,
    /// 1, 2 or 16.
    pub number: u32,
    /// The row.
    pub place: u32,
}

/// A good table with one rule broken, or nothing if it has no row to break it at.
pub fn damaged(
    rng: &mut Random,
    profile: Profile,
    table: &[u32],
    damage: Damage,
) -> Option<Damaged> {
    let mut table = table.to_vec();
    let rows = table.len() / ROW;
    if damage == Damage::Length {
        wrong_length(rng, &mut table);
        return Some(Damaged {
            table,
            number: 1,
            place: 0,
        });
    }
    let fits = |row: &usize| match damage {
        Damage::Root => *row == 0,
        Damage::Kind => true,
        Damage::FolderWords => table[row * ROW + 1] == 0,
        Damage::Order | Damage::Twin => sibling_before(&table, *row).is_some(),
        _ => *row > 0,
    };
    let candidates: Vec<usize> = (0..rows).filter(fits).collect();
    if candidates.is_empty() {
        return None;
    }
    let row = rng.pick(&candidates);
    match damage {
        Damage::Twin => make_twin(rng, profile, &mut table, row),
        _ => break_row(rng, &mut table, row, damage),
    }
    let twin = (Damage::Twin, Profile::Folded);
    let number = if (damage, profile) == twin { 16 } else { 2 };
    Some(Damaged {
        table,
        number,
        place: row as u32,
    })
}

fn wrong_length(rng: &mut Random, table: &mut Vec<u32>) {
    match rng.below(4) {
        0 => table.clear(),
        1 => table.truncate(table.len() - 1 - rng.below(ROW - 1)),
        2 => table.extend(vec![0; 1 + rng.below(ROW - 1)]),
        _ => table.resize((MOST_ROWS + 1) * ROW, 0),
    }
}

/// The sibling that comes directly before a row.
fn sibling_before(table: &[u32], row: usize) -> Option<usize> {
    let depth = table[row * ROW];
    let before = (0..row).rev().find(|other| table[other * ROW] <= depth)?;
    (table[before * ROW] == depth).then_some(before)
}

fn break_row(rng: &mut Random, table: &mut [u32], row: usize, damage: Damage) {
    let at = row * ROW;
    match damage {
        Damage::Length | Damage::Twin => unreachable!("made elsewhere"),
        Damage::Root => match rng.below(3) {
            0 => table[at] = 1 + rng.word() / 2,
            1 => table[at + 1] = 1 + rng.word() / 2,
            _ => table[at + 2 + rng.below(8)] = 1 + rng.word() / 2,
        },
        Damage::Kind => table[at + 1] = rng.pick(&[2, 3, 256, u32::MAX]),
        Damage::FolderWords => table[at + 10 + rng.below(10)] = 1 + rng.word() / 2,
        Damage::Depth => {
            let before = table[at - ROW];
            // A step of one is wrong after a file only.
            let step = 2 - table[at - ROW + 1];
            let wrong = [0, before + step, 17, 18, u32::MAX];
            table[at] = rng.pick(&wrong);
        }
        Damage::Order => {
            let before = sibling_before(table, row).expect("a row with a sibling before") * ROW;
            // The names change places, so that the sibling before is still in order.
            (2..10).for_each(|word| table.swap(at + word, before + word));
        }
        Damage::Name => break_name(rng, &mut table[at + 2..at + 10]),
    }
}

/// Gives a row the name of the sibling before.
fn make_twin(rng: &mut Random, profile: Profile, table: &mut [u32], row: usize) {
    let before = sibling_before(table, row).expect("a row with a sibling before") * ROW;
    let mut name = name_bytes(&table[before + 2..before + 10]).expect("a good name");
    if profile == Profile::Folded {
        name = recased(rng, &name);
    }
    table[row * ROW + 2..row * ROW + 10].copy_from_slice(&name_words(&name));
}

fn break_name(rng: &mut Random, words: &mut [u32]) {
    let bad: [&[u8]; 8] = [b"", b".", b"..", b"/", b"a/", b"/a", b"a/b", b"./a"];
    match rng.below(4) {
        0 => words.copy_from_slice(&name_words(b"\0a")),
        1 => words.copy_from_slice(&name_words(b"abc\0\0\0\0\0d")),
        2 => {
            let long = [b'a'; 31].iter().chain(b"/").copied().collect::<Vec<u8>>();
            words.copy_from_slice(&name_words(&long));
        }
        _ => words.copy_from_slice(&name_words(rng.pick(&bad))),
    }
}

/// A table with one word changed in some way; it may still be good.
pub fn altered(rng: &mut Random, table: &[u32]) -> Vec<u32> {
    let mut table = table.to_vec();
    if let Some(last) = table.len().checked_sub(1) {
        let row = rng.below(last / ROW + 1) * ROW;
        // Every second time one of the words in which the rules lie.
        let at = match rng.one_in(2) {
            true => row + rng.below(3),
            false => row + rng.below(ROW),
        };
        let at = at.min(last);
        table[at] = match rng.below(5) {
            0 => 0,
            1 => rng.word(),
            2 => table[at] ^ 1 << rng.below(32),
            3 => table[at].wrapping_add(1),
            _ => table[at].wrapping_sub(1),
        };
    }
    table
}

/// A path for a move between two trees, most often a good one that is in one of them; where letter
/// case is ignored, in any spelling.
pub fn path(rng: &mut Random, profile: Profile, target: &Node, source: &Node) -> (Slots, u32) {
    let from = if rng.one_in(2) { target } else { source };
    let paths = from.paths();
    let mut path: Path = rng.pick(&paths);
    if path.is_empty() || (path.len() < DEEPEST && rng.one_in(6)) {
        path.push(trees::name(rng, profile));
    }
    if profile == Profile::Folded && rng.one_in(2) {
        let name = |name: &Name| profile.name(&recased(rng, name.spelled()));
        path = path.iter().map(name).collect();
    }
    let (mut names, mut depth) = slots(&path);
    if rng.one_in(8) {
        match rng.below(4) {
            0 => depth = rng.pick(&[0, 17, u32::MAX, depth + 1, depth - 1]),
            1 => names[rng.below(16)][rng.below(8)] ^= 1 << rng.below(32),
            2 => break_name(rng, &mut names[depth as usize - 1]),
            _ => names[15][7] = 1,
        }
    }
    (names, depth)
}

/// Kind, left row and right row of an entry, for tables of so many rows; any values may come.
pub fn entry(rng: &mut Random, left_rows: usize, right_rows: usize) -> [u32; 3] {
    let kind = match rng.below(8) {
        0 => rng.word(),
        1 => 4,
        2 => 0,
        _ => 1 + rng.below(3) as u32,
    };
    let mut row = |rows: usize| match rng.below(8) {
        0 => NO_ROW,
        1 => rows as u32,
        2 => rng.word(),
        _ => rng.below(rows.max(1)) as u32,
    };
    [kind, row(left_rows), row(right_rows)]
}
