//! Trees as ordinary maps.

use std::collections::BTreeMap;

use crate::name::Name;

/// A folder's entries by name. The map's order is the order of sibling rows in the names' profile.
///
/// An entry that is put in the place of another keeps the other's spelling: so does the map.
pub type Entries = BTreeMap<Name, Node>;

/// A path's names from the root down; the root's path is empty.
///
/// Paths in the order of `Vec` are in preorder: a folder comes before what is in it.
pub type Path = Vec<Name>;

/// A file or a folder. A whole tree is the node of its root, which is a folder.
///
/// Two are equal whatever the spelling of their names; their tables tell the spelling too.
#[derive(Clone, Debug, PartialEq, Eq)]
pub enum Node {
    /// A file; equal to another when both size and digest are.
    File {
        /// Size in bytes.
        size: u64,
        /// SHA-256 digest, first eight hex digits in the first word.
        digest: [u32; 8],
    },
    /// A folder with its entries.
    Folder(Entries),
}

impl Default for Node {
    fn default() -> Self {
        Node::Folder(Entries::new())
    }
}

impl Node {
    /// A folder, and not a file.
    pub fn is_folder(&self) -> bool {
        matches!(self, Node::Folder(_))
    }

    /// The rows of the table of this subtree.
    pub fn rows(&self) -> usize {
        match self {
            Node::File { .. } => 1,
            Node::Folder(entries) => 1 + entries.values().map(Node::rows).sum::<usize>(),
        }
    }

    /// What is at a path, if anything.
    pub fn at(&self, path: &[Name]) -> Option<&Node> {
        match (path.split_first(), self) {
            (None, _) => Some(self),
            (Some((name, rest)), Node::Folder(entries)) => entries.get(name)?.at(rest),
            (Some(_), Node::File { .. }) => None,
        }
    }

    /// The entry of a name, with its name as it is spelled here.
    pub fn entry(&self, name: &Name) -> Option<(&Name, &Node)> {
        match self {
            Node::File { .. } => None,
            Node::Folder(entries) => entries.get_key_value(name),
        }
    }

    /// A path as this tree spells it, if it has the path.
    pub fn spelled(&self, path: &[Name]) -> Option<Path> {
        let mut names = Path::new();
        let mut node = self;
        for name in path {
            let (spelled, beneath) = node.entry(name)?;
            names.push(spelled.clone());
            node = beneath;
        }
        Some(names)
    }

    /// The same node with each path spelled as in the first of the given that has it, whatever they
    /// have there; a path that none of them has is spelled as it was.
    pub fn spelled_as(&self, given: &[&Node]) -> Node {
        let Node::Folder(entries) = self else {
            return self.clone();
        };
        let spell = |(name, node): (&Name, &Node)| {
            let found: Vec<_> = given.iter().filter_map(|tree| tree.entry(name)).collect();
            let beneath: Vec<&Node> = found.iter().map(|entry| entry.1).collect();
            let name = found.first().map_or(name, |entry| entry.0);
            (name.clone(), node.spelled_as(&beneath))
        };
        Node::Folder(entries.iter().map(spell).collect())
    }

    /// Whether a path holds a folder.
    pub fn folder_at(&self, path: &[Name]) -> bool {
        self.at(path).is_some_and(Node::is_folder)
    }

    /// Makes what is at a path be the given, absence included. A name that is there keeps its spelling.
    ///
    /// # Panics
    /// If the path is the root's and the given is absent, or its parent is not a folder.
    pub fn put(&mut self, path: &[Name], given: Option<Node>) {
        let Some((name, rest)) = path.split_first() else {
            *self = given.expect("a root is never removed");
            return;
        };
        let Node::Folder(entries) = self else {
            panic!("a file has no entries");
        };
        if !rest.is_empty() {
            let child = entries.get_mut(name).expect("the parent is there");
            child.put(rest, given);
        } else if let Some(node) = given {
            entries.insert(name.clone(), node);
        } else {
            entries.remove(name);
        }
    }

    /// Every path of the tree in preorder, the root first: the place in this list is the row.
    pub fn paths(&self) -> Vec<Path> {
        let mut all = vec![Path::new()];
        if let Node::Folder(entries) = self {
            for (name, node) in entries {
                for mut path in node.paths() {
                    path.insert(0, name.clone());
                    all.push(path);
                }
            }
        }
        all
    }
}
