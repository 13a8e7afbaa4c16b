//! Trees of a given shape and size, large ones too, and sides that differ from them in one pass.

use super::spelling::respelled;
use super::trees::{self, Three};
use super::Random;
use crate::name::{Name, Profile};
use crate::table::DEEPEST;
use crate::tree::{Entries, Node};

/// The shape of a tree.
#[derive(Clone, Copy, Debug, PartialEq, Eq)]
pub enum Shape {
    /// All entries in the root.
    Wide,
    /// Chains of folders down to depth 16, a file at the end of each.
    Deep,
    /// Folders of up to 16 entries, most of them files.
    Mixed,
}

/// Every shape.
pub const SHAPES: [Shape; 3] = [Shape::Wide, Shape::Deep, Shape::Mixed];

/// How the sides differ from the archive.
#[derive(Clone, Copy, Debug, PartialEq, Eq)]
pub enum Change {
    /// Not at all.
    Agreed,
    /// By changes that the other side gets, subtrees among them.
    Moves,
    /// By moves, by the same change on both sides, and by clashes.
    Clashes,
}

/// Every change.
pub const CHANGES: [Change; 3] = [Change::Agreed, Change::Moves, Change::Clashes];

/// A tree of the shape with exactly so many rows, at least one. Its names are in small letters, or
/// where letter case is ignored in any.
pub fn shaped(rng: &mut Random, profile: Profile, shape: Shape, rows: usize) -> Node {
    let name = |word: &str, number: usize| numbered(profile, word, number);
    let mut entries = Entries::new();
    let mut left = rows - 1;
    while left > 0 {
        let number = entries.len();
        match shape {
            Shape::Wide => {
                entries.insert(name("day", number), content(rng));
                left -= 1;
            }
            Shape::Deep => {
                let rows = left.min(DEEPEST);
                entries.insert(name("ear", number), chain(rng, profile, rows));
                left -= rows;
            }
            Shape::Mixed => {
                entries.insert(name("ear", number), folder(rng, profile, 2, &mut left));
            }
        }
    }
    respelled(rng, profile, &Node::Folder(entries))
}

/// A name that ascends with its number.
fn numbered(profile: Profile, word: &str, number: usize) -> Name {
    profile.name(format!("{word}-{number:04}").as_bytes())
}

/// A file with a size and a digest like no other's.
fn content(rng: &mut Random) -> Node {
    Node::File {
        size: rng.bits() >> 32,
        digest: [(); 8].map(|()| rng.word()),
    }
}

/// So many rows beneath each other, the last a file.
fn chain(rng: &mut Random, profile: Profile, rows: usize) -> Node {
    let mut node = content(rng);
    for depth in 1..rows {
        let name = numbered(profile, "in", depth);
        node = Node::Folder(Entries::from([(name, node)]));
    }
    node
}

/// A folder whose entries have the given depth, of no more rows than are left, itself one of them.
fn folder(rng: &mut Random, profile: Profile, depth: usize, left: &mut usize) -> Node {
    *left -= 1;
    let mut entries = Entries::new();
    for number in 0..8 + rng.below(9) {
        if *left == 0 || depth > DEEPEST {
            break;
        }
        let node = if rng.one_in(4) {
            folder(rng, profile, depth + 1, left)
        } else {
            *left -= 1;
            content(rng)
        };
        entries.insert(numbered(profile, "day", number), node);
    }
    Node::Folder(entries)
}

/// Three trees of the shape, each of exactly so many rows.
///
/// What one side alone changes keeps its rows: a file gets another content, an entry another name.
/// Where letter case is ignored, each has spellings of its own.
pub fn changed(
    rng: &mut Random,
    profile: Profile,
    shape: Shape,
    rows: usize,
    change: Change,
) -> Three {
    let archive = shaped(rng, profile, shape, rows);
    let (left, right) = match change {
        Change::Agreed => (archive.clone(), archive.clone()),
        _ => apart(rng, profile, &archive, change),
    };
    let [left, right] = [left, right].map(|side| respelled(rng, profile, &side));
    Three {
        archive,
        left,
        right,
    }
}

fn apart(rng: &mut Random, profile: Profile, node: &Node, change: Change) -> (Node, Node) {
    let Node::Folder(entries) = node else {
        return (node.clone(), node.clone());
    };
    let mut sides = [Entries::new(), Entries::new()];
    for (name, node) in entries {
        let side = rng.below(2);
        let mut put = |side: usize, name: &Name, node: Node| {
            sides[side].insert(name.clone(), node);
        };
        match rng.below(32) {
            // A new name, for a whole subtree at times; the other side has what the archive has.
            0 => {
                let other = profile.name(&[name.spelled(), b"~"].concat());
                put(side, &other, node.clone());
                put(1 - side, name, node.clone());
            }
            1..=4 if !node.is_folder() => {
                put(side, name, content(rng));
                put(1 - side, name, node.clone());
            }
            5 | 6 if !node.is_folder() && change == Change::Clashes => {
                put(side, name, content(rng));
                put(1 - side, name, content(rng));
            }
            7 if !node.is_folder() && change == Change::Clashes => {
                let same = content(rng);
                put(side, name, same.clone());
                put(1 - side, name, same);
            }
            _ => {
                let (left, right) = apart(rng, profile, node, change);
                put(0, name, left);
                put(1, name, right);
            }
        }
    }
    let [left, right] = sides;
    (Node::Folder(left), Node::Folder(right))
}

/// The tree with edits of all kinds strewn over it in one pass, one in so many entries, and of no
/// more than so many rows.
pub fn strewn(rng: &mut Random, profile: Profile, tree: &Node, odds: usize, most: usize) -> Node {
    let mut room = most.saturating_sub(tree.rows());
    let edited = strew(rng, profile, tree, odds, &mut room);
    respelled(rng, profile, &edited)
}

/// The room is how many rows may still be added.
fn strew(rng: &mut Random, profile: Profile, node: &Node, odds: usize, room: &mut usize) -> Node {
    let Node::Folder(entries) = node else {
        return node.clone();
    };
    let mut result = Entries::new();
    for (name, node) in entries {
        let edit = if rng.one_in(odds) { rng.below(5) } else { 5 };
        let now = match edit {
            0 => None,
            1 => Some(trees::file(rng)),
            2 => Some(Node::default()),
            _ => Some(strew(rng, profile, node, odds, room)),
        };
        if let Some(now) = now {
            result.insert(name.clone(), now);
        }
        if edit == 3 && *room > 0 {
            let added = trees::fresh(rng, profile, entries);
            // An entry that was added here before is taken over.
            if result.insert(added, trees::file(rng)).is_none() {
                *room -= 1;
            }
        }
    }
    Node::Folder(result)
}
