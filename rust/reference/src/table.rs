//! Tables of words: reading one into a tree, and writing a tree as one.

use std::cmp::Ordering;

use crate::answer::{Answer, Refusal, ARCHIVE};
use crate::name::{Name, Profile};
use crate::tree::{Entries, Node, Path};

/// Words in a row.
pub const ROW: usize = 20;
/// The most rows a table has.
pub const MOST_ROWS: usize = 4096;
/// The greatest depth of a row.
pub const DEEPEST: usize = 16;
/// The most bytes of a name.
pub const NAME_BYTES: usize = 32;
/// Stands in a list for a row that doesn't exist.
pub const NO_ROW: u32 = u32::MAX;

/// A name's bytes from its words, or nothing if a zero stands before a non-zero byte.
pub fn name_bytes(words: &[u32]) -> Option<Vec<u8>> {
    let bytes: Vec<u8> = words.iter().flat_map(|word| word.to_be_bytes()).collect();
    let length = bytes.iter().position(|&b| b == 0).unwrap_or(bytes.len());
    let filled = bytes[length..].iter().all(|&b| b == 0);
    filled.then(|| bytes[..length].to_vec())
}

/// The words of a name of at most 32 bytes.
pub fn name_words(name: &[u8]) -> [u32; 8] {
    let mut words = [0; 8];
    for (i, &byte) in name.iter().enumerate() {
        words[i / 4] |= u32::from(byte) << (8 * (3 - i % 4));
    }
    words
}

/// Whether a row other than the root's may have this name.
pub fn good_name(name: &[u8]) -> bool {
    let plain = !name.contains(&b'/') && !name.contains(&0);
    (1..=NAME_BYTES).contains(&name.len()) && plain && name != b"." && name != b".."
}

/// Checks a table on its own, which is side 1, and gives its tree.
pub fn check(profile: Profile, table: &[u32]) -> Answer<Node> {
    let [tree] = check_all(profile, [(ARCHIVE, table)])?;
    Ok(tree)
}

/// Checks the tables of a call, each with its side, and gives their trees: 1 and 2 of each table, and
/// only then 16 of each.
pub fn check_all<const N: usize>(profile: Profile, given: [(u32, &[u32]); N]) -> Answer<[Node; N]> {
    let mut taken = Vec::new();
    for (side, table) in given {
        taken.push((side, rows_of(profile, side, table)?));
    }
    for (side, open) in &taken {
        if let Some(row) = open.twin {
            return Err(Refusal::new(16, *side, row));
        }
    }
    let mut trees = taken.into_iter().map(|(_, open)| open.close_all());
    Ok(given.map(|_| trees.next().expect("a tree for each table")))
}

/// All rows of a table, unless it is due 1 or 2.
fn rows_of(profile: Profile, side: u32, table: &[u32]) -> Answer<Open> {
    let rows = table.len() / ROW;
    if !table.len().is_multiple_of(ROW) || rows == 0 || rows > MOST_ROWS {
        return Err(Refusal::new(1, side, 0));
    }
    let mut open = Open::default();
    for (number, row) in (0..).zip(table.chunks(ROW)) {
        let taken = match number {
            0 => open.take_root(profile, row),
            _ => open.take(profile, number, row),
        };
        taken.ok_or(Refusal::new(2, side, number))?;
    }
    Ok(open)
}

/// The folders that the last row stands in, itself included if it is one, the root first.
#[derive(Default)]
struct Open {
    folders: Vec<(Name, Entries)>,
    /// The first row whose name is its sibling's, where letter case is ignored.
    twin: Option<u32>,
}

impl Open {
    /// Opens the root, if the row is a root's.
    fn take_root(&mut self, profile: Profile, row: &[u32]) -> Option<()> {
        row.iter().all(|&word| word == 0).then(|| {
            self.folders.push((profile.name(b""), Entries::new()));
        })
    }

    /// Takes a row that is not the first, if it can follow the rows taken before.
    fn take(&mut self, profile: Profile, number: u32, row: &[u32]) -> Option<()> {
        let depth = row[0] as usize;
        // One deeper than the row before only fits if that row opened a folder.
        if depth == 0 || depth > DEEPEST || depth > self.folders.len() {
            return None;
        }
        while self.folders.len() > depth {
            self.close();
        }
        let name = name_bytes(&row[2..10]).filter(|name| good_name(name))?;
        let name = profile.name(&name);
        let siblings = &mut self.folders.last_mut()?.1;
        // The rows before are in order, so the last key is the sibling before.
        let before = siblings.keys().next_back();
        match before.map(|before| before.cmp(&name)) {
            None | Some(Ordering::Less) => {}
            Some(Ordering::Equal) if profile == Profile::Folded => {
                self.twin = self.twin.or(Some(number));
            }
            Some(_) => return None,
        }
        match row[1] {
            0 if row[10..].iter().all(|&word| word == 0) => {
                self.folders.push((name, Entries::new()));
            }
            1 => {
                siblings.insert(name, file_of(row));
            }
            _ => return None,
        }
        Some(())
    }

    /// Puts the folder opened last into the one around it.
    fn close(&mut self) {
        let (name, entries) = self.folders.pop().expect("a folder is open");
        let around = self.folders.last_mut().expect("the root stays open");
        around.1.insert(name, Node::Folder(entries));
    }

    fn close_all(mut self) -> Node {
        while self.folders.len() > 1 {
            self.close();
        }
        Node::Folder(self.folders.pop().expect("the root is open").1)
    }
}

fn file_of(row: &[u32]) -> Node {
    let mut digest = [0; 8];
    digest.copy_from_slice(&row[12..20]);
    Node::File {
        size: u64::from(row[10]) << 32 | u64::from(row[11]),
        digest,
    }
}

/// The table of a tree, its names spelled as they are there.
pub fn table(tree: &Node) -> Vec<u32> {
    let mut words = Vec::new();
    put_rows(&mut words, 0, b"", tree);
    words
}

fn put_rows(words: &mut Vec<u32>, depth: u32, name: &[u8], node: &Node) {
    words.push(depth);
    words.push(u32::from(!node.is_folder()));
    words.extend(name_words(name));
    match node {
        Node::File { size, digest } => {
            words.extend([(size >> 32) as u32, *size as u32]);
            words.extend(digest);
        }
        Node::Folder(entries) => {
            words.extend([0; 10]);
            for (name, node) in entries {
                put_rows(words, depth + 1, name.spelled(), node);
            }
        }
    }
}

/// The path of a row of a good table, as the table spells it.
///
/// # Panics
/// If the table is refused or has no such row.
pub fn path_of(profile: Profile, table: &[u32], row: u32) -> Path {
    let tree = check(profile, table).expect("a good table");
    tree.paths().swap_remove(row as usize)
}
