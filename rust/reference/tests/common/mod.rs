//! Small trees written by hand.
#![allow(dead_code)]

use reference::Profile::{self, Exact};
use reference::{name_words, table, Node, Path, ROW};

/// A file of the given content number.
pub fn file(content: u32) -> Node {
    let digest = [content; 8];
    let size = u64::from(content);
    Node::File { size, digest }
}

/// A path from names parted by slashes, where every byte counts.
pub fn path(names: &str) -> Path {
    path_in(Exact, names)
}

/// A path from names parted by slashes.
pub fn path_in(profile: Profile, names: &str) -> Path {
    profile.path(&names.split('/').collect::<Vec<_>>())
}

/// A tree beside the lone root, where every byte counts.
pub fn tree(listed: &[(&str, u32)]) -> Node {
    tree_in(Exact, listed)
}

/// A tree beside the lone root: each path holds a file of its content number, 0 an empty folder.
/// Folders on the way are made, if they are not there in any spelling.
pub fn tree_in(profile: Profile, listed: &[(&str, u32)]) -> Node {
    let mut tree = Node::default();
    for (names, content) in listed {
        let path = path_in(profile, names);
        for depth in 1..path.len() {
            if tree.at(&path[..depth]).is_none() {
                tree.put(&path[..depth], Some(Node::default()));
            }
        }
        let node = match content {
            0 => Node::default(),
            _ => file(*content),
        };
        tree.put(&path, Some(node));
    }
    tree
}

/// The table of such a tree, where every byte counts.
pub fn rows(listed: &[(&str, u32)]) -> Vec<u32> {
    rows_in(Exact, listed)
}

/// The table of such a tree.
pub fn rows_in(profile: Profile, listed: &[(&str, u32)]) -> Vec<u32> {
    table(&tree_in(profile, listed))
}

/// Number, side and place of a refusal.
pub fn no<T: std::fmt::Debug>(answer: reference::Answer<T>) -> [u32; 3] {
    let refusal = answer.expect_err("a refusal");
    [refusal.number, refusal.side, refusal.place]
}

/// A wide tree of so many rows.
pub fn wide(rows: usize) -> Vec<u32> {
    let mut words = vec![0; ROW];
    for row in 1..rows as u32 {
        words.extend([1, 1]);
        words.extend(name_words(format!("{row:04x}").as_bytes()));
        words.extend([0; 10]);
    }
    words
}
