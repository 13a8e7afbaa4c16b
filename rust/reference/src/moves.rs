//! A single move.

use crate::answer::{Answer, Refusal, LEFT, RIGHT};
use crate::name::{Name, Profile};
use crate::table::{check_all, good_name, name_bytes, name_words, table, DEEPEST, MOST_ROWS, ROW};
use crate::tree::Path;

/// A path's sixteen names of eight words each.
pub type Slots = [[u32; 8]; 16];

/// Makes the target's subtree at the path equal the source's, absence included, and gives the
/// table of the result: in the target's spelling of every path that the target has, and in the
/// source's of the others.
pub fn make_move(
    profile: Profile,
    target: &[u32],
    source: &[u32],
    names: &Slots,
    depth: u32,
    room_words: usize,
) -> Answer<Vec<u32>> {
    let [target, source] = check_all(profile, [(LEFT, target), (RIGHT, source)])?;
    let path = path_in(profile, names, depth).ok_or(Refusal::new(5, 0, 0))?;
    if !target.folder_at(&path[..path.len() - 1]) {
        return Err(Refusal::new(4, 0, 0));
    }
    let mut result = target.clone();
    result.put(&path, source.at(&path).cloned());
    let rows = result.rows();
    if rows > MOST_ROWS || rows > room_words / ROW {
        return Err(Refusal::new(3, LEFT, 0));
    }
    Ok(table(&result.spelled_as(&[&target, &source])))
}

/// The path that the slots hold, unless the depth or a slot is bad.
fn path_in(profile: Profile, names: &Slots, depth: u32) -> Option<Path> {
    let depth = depth as usize;
    if depth == 0 || depth > DEEPEST {
        return None;
    }
    let (used, past) = names.split_at(depth);
    if past.iter().flatten().any(|&word| word != 0) {
        return None;
    }
    let name = |slot: &[u32; 8]| {
        let spelled = name_bytes(slot).filter(|name| good_name(name))?;
        Some(profile.name(&spelled))
    };
    used.iter().map(name).collect()
}

/// The slots and the depth of a path of at most sixteen names, as they are spelled.
pub fn slots(path: &[Name]) -> (Slots, u32) {
    let mut names = [[0; 8]; 16];
    for (slot, name) in names.iter_mut().zip(path) {
        *slot = name_words(name.spelled());
    }
    (names, path.len() as u32)
}
