//! Random trees, and trees that came from a common one by edits.

use super::spelling::{recased, respelled};
use super::Random;
use crate::name::{Name, Profile};
use crate::table::{good_name, DEEPEST, NAME_BYTES};
use crate::tree::{Entries, Node, Path};

/// Names that are easily taken for something else, or sort oddly.
const AWKWARD: [&[u8]; 22] = [
    b"...",
    b".a",
    b"..a",
    b"a.",
    b"a..",
    b"#x",
    b"#",
    b"a b",
    b"\\",
    b"\\057",
    b"*",
    b"?",
    b"[",
    b"type=dir",
    b"=",
    b"-",
    b"a\n",
    b"a\t",
    b"\x7f",
    b"\xff",
    b"a\x01",
    b"\\\n",
];

/// The bytes on both sides of the letters' ends, and the one that stands between the two cases.
const EDGES: [u8; 9] = [64, 65, 90, 91, 95, 96, 97, 122, 123];

/// A good name. Short ones of few letters come often, so that two trees share them, in either case.
pub fn name(rng: &mut Random, profile: Profile) -> Name {
    loop {
        let name = match rng.below(16) {
            0..=7 => vec![b'a' + rng.below(4) as u8],
            8 => vec![b'a' + rng.below(2) as u8, b'-' + rng.below(3) as u8 * 40],
            9 => {
                let length = 1 + rng.below(NAME_BYTES);
                (0..length).map(|_| rng.byte()).collect()
            }
            10 => (0..NAME_BYTES).map(|_| b'x' + rng.below(2) as u8).collect(),
            11 => (0..3).map(|_| 33 + rng.below(94) as u8).collect(),
            12 => vec![rng.byte(), rng.byte()],
            13 => vec![rng.pick(&EDGES)],
            14 => (0..=rng.below(4)).map(|_| rng.pick(&EDGES)).collect(),
            _ => rng.pick(&AWKWARD).to_vec(),
        };
        if good_name(&name) {
            return match rng.one_in(4) {
                true => profile.name(&recased(rng, &name)),
                false => profile.name(&name),
            };
        }
    }
}

/// A file. Few contents come often, so that equal files happen.
pub fn file(rng: &mut Random) -> Node {
    let size = match rng.below(10) {
        0 => u64::MAX,
        1 => 1 << 32,
        2 => rng.bits(),
        3 => rng.bits() >> rng.below(64),
        few => few as u64 % 3,
    };
    let digest = match rng.below(6) {
        0 => [(); 8].map(|()| rng.word()),
        1 => [u32::MAX; 8],
        few => [few as u32 % 2; 8],
    };
    Node::File { size, digest }
}

/// A tree of exactly so many rows, at least one.
pub fn tree(rng: &mut Random, profile: Profile, rows: usize) -> Node {
    let mut left = rows - 1;
    let mut entries = Entries::new();
    fill(rng, profile, 1, &mut left, rows, &mut entries);
    Node::Folder(entries)
}

/// Adds entries of this depth until `most` rows were used; at the root none may be left over.
fn fill(
    rng: &mut Random,
    profile: Profile,
    depth: usize,
    left: &mut usize,
    most: usize,
    entries: &mut Entries,
) {
    let stop = left.saturating_sub(most);
    while *left > stop {
        let name = fresh(rng, profile, entries);
        *left -= 1;
        let node = if rng.one_in(3) {
            let mut beneath = Entries::new();
            let share = match rng.below(3) {
                _ if depth == DEEPEST => 0,
                0 => *left - stop,
                _ => rng.below(*left - stop + 1),
            };
            fill(rng, profile, depth + 1, left, share, &mut beneath);
            Node::Folder(beneath)
        } else {
            file(rng)
        };
        entries.insert(name, node);
    }
}

/// A good name that the entries do not have.
pub(super) fn fresh(rng: &mut Random, profile: Profile, entries: &Entries) -> Name {
    for _ in 0..4 {
        let name = name(rng, profile);
        if !entries.contains_key(&name) {
            return name;
        }
    }
    loop {
        let name = profile.name(format!("n{:x}", rng.word()).as_bytes());
        if !entries.contains_key(&name) {
            return name;
        }
    }
}

/// The tree after so many edits: adds, changes, removals, file and folder swaps.
pub fn edited(rng: &mut Random, profile: Profile, tree: &Node, edits: usize) -> Node {
    let mut result = tree.clone();
    for _ in 0..edits {
        let paths = result.paths();
        let path = rng.pick(&paths);
        edit(rng, profile, &mut result, path);
    }
    result
}

fn edit(rng: &mut Random, profile: Profile, tree: &mut Node, mut path: Path) {
    let action = rng.below(5);
    if let (true, Some(Node::Folder(entries))) = (action < 2 || path.is_empty(), tree.at(&path)) {
        if path.len() < DEEPEST {
            path.push(fresh(rng, profile, entries));
            let added = small(rng, profile, path.len());
            tree.put(&path, Some(added));
        }
        return;
    }
    let was_folder = tree.folder_at(&path);
    let now = match (action, was_folder) {
        (2, _) => None,
        (3, false) => Some(folder(rng, profile, path.len())),
        (3, true) => Some(file(rng)),
        (4, true) => Some(folder(rng, profile, path.len())),
        _ => Some(file(rng)),
    };
    tree.put(&path, now);
}

/// A file or a small folder at the given depth.
fn small(rng: &mut Random, profile: Profile, depth: usize) -> Node {
    match rng.one_in(2) {
        true => file(rng),
        false => folder(rng, profile, depth),
    }
}

fn folder(rng: &mut Random, profile: Profile, depth: usize) -> Node {
    let mut entries = Entries::new();
    let mut left = rng.below(4);
    if depth < DEEPEST {
        fill(rng, profile, depth + 1, &mut left, 4, &mut entries);
    }
    Node::Folder(entries)
}

/// Three trees to reconcile.
#[derive(Clone, Debug, PartialEq, Eq)]
pub struct Three {
    /// The archive.
    pub archive: Node,
    /// The left tree.
    pub left: Node,
    /// The right tree.
    pub right: Node,
}

impl Three {
    /// The tables of archive, left and right.
    pub fn tables(&self) -> [Vec<u32>; 3] {
        [&self.archive, &self.left, &self.right].map(crate::table)
    }
}

/// An archive of so many rows, and two sides that came from it, together at first or apart. Where
/// letter case is ignored, each of the three most often has spellings of its own.
pub fn three(rng: &mut Random, profile: Profile, rows: usize) -> Three {
    let archive = tree(rng, profile, rows);
    let most = 2 + rows / 3;
    let common = match rng.below(3) {
        0 => archive.clone(),
        _ => {
            let edits = rng.below(most);
            edited(rng, profile, &archive, edits)
        }
    };
    let mut side = |from: &Node| match rng.below(10) {
        0 => archive.clone(),
        1 => tree(rng, profile, rows),
        2 => from.clone(),
        _ => {
            let edits = rng.below(most);
            edited(rng, profile, from, edits)
        }
    };
    let (left, right) = (side(&common), side(&common));
    let archive = match rng.below(12) {
        0 => Node::default(),
        _ => archive,
    };
    let [archive, left, right] = [archive, left, right].map(|tree| match rng.one_in(4) {
        true => tree,
        false => respelled(rng, profile, &tree),
    });
    Three {
        archive,
        left,
        right,
    }
}
