//! Reconciling three trees, decided path by path.

use std::collections::{BTreeMap, BTreeSet};

use crate::answer::{Answer, Refusal, ARCHIVE, LEFT, LIST, RIGHT};
use crate::name::{Name, Profile};
use crate::table::{check_all, table, MOST_ROWS, NO_ROW, ROW};
use crate::tree::{Node, Path};

/// Kind of an entry: the left tree gets the right one's subtree, or loses its own.
pub const LEFT_GETS: u32 = 1;
/// Kind of an entry: the right tree gets the left one's subtree, or loses its own.
pub const RIGHT_GETS: u32 = 2;
/// Kind of an entry: both sides keep what they have.
pub const CLASH: u32 = 3;

/// An entry of the list: kind, row of the left input table, row of the right one.
pub type Entry = [u32; 3];

/// The lent rooms, in words.
#[derive(Clone, Copy, Debug, PartialEq, Eq)]
pub struct Rooms {
    /// Room for the new archive.
    pub archive: usize,
    /// Room for the new left tree.
    pub left: usize,
    /// Room for the new right tree.
    pub right: usize,
    /// Room for the list.
    pub list: usize,
}

impl Rooms {
    /// Rooms in which everything fits that is within the limits.
    pub const AMPLE: Rooms = Rooms {
        archive: MOST_ROWS * ROW,
        left: MOST_ROWS * ROW,
        right: MOST_ROWS * ROW,
        list: 3 * MOST_ROWS * 3,
    };
}

/// What an accepted reconciliation gives.
#[derive(Clone, Debug, PartialEq, Eq)]
pub struct Outcome {
    /// The new archive's table.
    pub archive: Vec<u32>,
    /// The new left table.
    pub left: Vec<u32>,
    /// The new right table.
    pub right: Vec<u32>,
    /// The list, in preorder.
    pub list: Vec<Entry>,
    /// How many entries of kinds 1, 2 and 3 the list has.
    pub tally: [u32; 3],
}

impl Outcome {
    /// The four counts of the answer: rows of the new archive, left and right, and list entries.
    pub fn counts(&self) -> [u32; 4] {
        let rows = |table: &Vec<u32>| (table.len() / ROW) as u32;
        let entries = self.list.len() as u32;
        [
            rows(&self.archive),
            rows(&self.left),
            rows(&self.right),
            entries,
        ]
    }

    /// The list as it stands in a lent buffer.
    pub fn list_words(&self) -> Vec<u32> {
        self.list.concat()
    }
}

#[derive(Clone, Copy, PartialEq, Eq)]
enum Decision {
    /// A folder on both sides, which goes by its entries.
    Folders,
    Agreed,
    LeftGets,
    RightGets,
    Clash,
}

/// The first line that fits, at a relevant path.
fn decide(o: Option<&Node>, l: Option<&Node>, r: Option<&Node>) -> Decision {
    if l.is_some_and(Node::is_folder) && r.is_some_and(Node::is_folder) {
        Decision::Folders
    } else if l == r {
        Decision::Agreed
    } else if l == o {
        Decision::LeftGets
    } else if r == o {
        Decision::RightGets
    } else {
        Decision::Clash
    }
}

/// Reconciles three tables within the lent rooms.
pub fn reconcile(
    profile: Profile,
    archive: &[u32],
    left: &[u32],
    right: &[u32],
    rooms: Rooms,
) -> Answer<Outcome> {
    let given = [(ARCHIVE, archive), (LEFT, left), (RIGHT, right)];
    let [o, l, r] = check_all(profile, given)?;
    let outcome = settle(&o, &l, &r);
    let counts = outcome.counts().map(|count| count as usize);
    for (side, count, room) in [
        (ARCHIVE, counts[0], rooms.archive),
        (LEFT, counts[1], rooms.left),
        (RIGHT, counts[2], rooms.right),
    ] {
        if count > MOST_ROWS || count > room / ROW {
            return Err(Refusal::new(3, side, 0));
        }
    }
    // A list has no limit but its room.
    if counts[3] > rooms.list / 3 {
        return Err(Refusal::new(3, LIST, 0));
    }
    Ok(outcome)
}

fn settle(o: &Node, l: &Node, r: &Node) -> Outcome {
    let decided = decisions(o, l, r);
    let new_l = new_side(&decided, Decision::LeftGets, l, r);
    let new_r = new_side(&decided, Decision::RightGets, r, l);
    let new_o = new_archive(&decided, o, &new_l);
    let list = listed(&decided, l, r);
    let mut tally = [0; 3];
    for [kind, ..] in &list {
        tally[*kind as usize - 1] += 1;
    }
    Outcome {
        archive: table(&new_o),
        left: table(&new_l),
        right: table(&new_r),
        list,
        tally,
    }
}

/// The relevant paths of the three trees in preorder, each with what is decided there.
fn decisions(o: &Node, l: &Node, r: &Node) -> Vec<(Path, Decision)> {
    let all: BTreeSet<Path> = [o, l, r].iter().flat_map(|tree| tree.paths()).collect();
    all.into_iter()
        .filter(|path| relevant(path, l, r))
        .map(|path| {
            let decision = decide(o.at(&path), l.at(&path), r.at(&path));
            (path, decision)
        })
        .collect()
}

/// A side after the moves to it. It keeps its spelling of every path that it had, and has the
/// other's of the new ones.
fn new_side(decided: &[(Path, Decision)], gets: Decision, side: &Node, other: &Node) -> Node {
    let mut new = side.clone();
    for (path, _) in decided.iter().filter(|(_, decision)| *decision == gets) {
        new.put(path, other.at(path).cloned());
    }
    new.spelled_as(&[side, other])
}

/// The new archive: what the old one has at and beneath each clash, and what the new left has
/// elsewhere, spelled as it is where it is taken from.
fn new_archive(decided: &[(Path, Decision)], old: &Node, left: &Node) -> Node {
    let mut new = Node::default();
    for (path, decision) in decided {
        let from = match decision {
            Decision::Clash => old,
            _ => left,
        };
        let given = match decision {
            Decision::Folders => Some(Node::default()),
            _ => from.at(path).cloned(),
        };
        if let Some(spelled) = from.spelled(path) {
            new.put(&spelled, given);
        }
    }
    new
}

/// The list: kinds and the rows of the two tables.
fn listed(decided: &[(Path, Decision)], l: &Node, r: &Node) -> Vec<Entry> {
    let (left, right) = (row_numbers(l), row_numbers(r));
    let row_in = |rows: &BTreeMap<Path, u32>, path: &Path| *rows.get(path).unwrap_or(&NO_ROW);
    let mut list = Vec::new();
    for (path, decision) in decided {
        let kind = match decision {
            Decision::Folders | Decision::Agreed => continue,
            Decision::LeftGets => LEFT_GETS,
            Decision::RightGets => RIGHT_GETS,
            Decision::Clash => CLASH,
        };
        list.push([kind, row_in(&left, path), row_in(&right, path)]);
    }
    list
}

/// The root, and every path whose parent is relevant and a folder on both sides.
fn relevant(path: &[Name], l: &Node, r: &Node) -> bool {
    match path.split_last() {
        None => true,
        Some((_, parent)) => relevant(parent, l, r) && l.folder_at(parent) && r.folder_at(parent),
    }
}

fn row_numbers(tree: &Node) -> BTreeMap<Path, u32> {
    tree.paths().into_iter().zip(0..).collect()
}
