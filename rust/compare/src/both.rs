//! One call of the library and the same one of the reference, compared in everything. Both are made in
//! the profile of the case.

use reference::lent::Buffers;
use reference::{Answer, Rooms, Slots, LEFT, LEFT_GETS, RIGHT, RIGHT_GETS, ROW};

use crate::calls::{self, Words};
use crate::lent::Lent;
use crate::tried::Case;

/// What an accepted reconciliation of the library gave.
#[derive(Clone, Debug)]
pub struct Run {
    /// The new archive.
    pub archive: Vec<u32>,
    /// The new left.
    pub left: Vec<u32>,
    /// The new right.
    pub right: Vec<u32>,
    /// The list.
    pub list: Vec<[u32; 3]>,
}

/// The eight words of an answer: number, side and place, or the counts of a reconciliation.
fn words<T>(answer: &Answer<T>, accepted: impl Fn(&T) -> Words) -> Words {
    match answer {
        Ok(made) => accepted(made),
        Err(no) => [no.number, no.side, no.place, 0, 0, 0, 0, 0],
    }
}

fn with_place(place: &usize) -> Words {
    [0, 0, *place as u32, 0, 0, 0, 0, 0]
}

/// Compares the answers and counts the call, its number and its side.
fn answered(case: &mut Case, call: &str, library: Words, reference: Words) {
    case.same(&format!("{call}'s answer"), &library, &reference);
    case.saw(call);
    case.saw(&format!("{call} {}", library[0]));
    if library[1] != 0 {
        case.saw(&format!("{call} {} side {}", library[0], library[1]));
    }
}

/// Checks a table; whether it keeps the rules.
pub fn check(case: &mut Case, table: &[u32]) -> bool {
    let library = calls::check(case.word(), table);
    let reference = words(&reference::check(case.profile, table), |_| [0; 8]);
    answered(case, "check", library, reference);
    library[0] == 0
}

/// Reconciles archive, left and right in the given rooms.
pub fn reconcile(case: &mut Case, tables: [&[u32]; 3], rooms: Rooms) -> Option<Run> {
    let mut lent = [rooms.archive, rooms.left, rooms.right, rooms.list].map(Lent::<u32>::new);
    let mut tally = [7, 8, 9];
    let mut theirs = Buffers {
        archive: lent[0].inside().to_vec(),
        left: lent[1].inside().to_vec(),
        right: lent[2].inside().to_vec(),
        list: lent[3].inside().to_vec(),
        tally,
    };
    let rooms = lent.each_mut().map(Lent::room);
    let library = calls::reconcile(case.word(), tables, rooms, &mut tally);
    let [archive, left, right] = tables;
    let due = reference::lent::reconcile(case.profile, archive, left, right, &mut theirs);
    let due = words(&due, |[o, l, r, list]| [0, 0, 0, *o, *l, *r, *list, 0]);
    answered(case, "reconcile", library, due);
    case.same_lent("new archive", &lent[0], &theirs.archive);
    case.same_lent("new left", &lent[1], &theirs.left);
    case.same_lent("new right", &lent[2], &theirs.right);
    case.same_lent("list", &lent[3], &theirs.list);
    case.same("tally", &tally, &theirs.tally);
    let table = |side: usize| lent[side].inside()[..20 * library[3 + side] as usize].to_vec();
    let entries = lent[3].inside().chunks_exact(3);
    (library[0] == 0).then(|| Run {
        archive: table(0),
        left: table(1),
        right: table(2),
        list: entries
            .take(library[6] as usize)
            .map(|entry| [entry[0], entry[1], entry[2]])
            .collect(),
    })
}

/// Carries out a move in a room of so many words; the table that came of it.
pub fn make_move(
    case: &mut Case,
    target: &[u32],
    source: &[u32],
    (names, depth): (&Slots, u32),
    room: usize,
) -> Option<Vec<u32>> {
    let mut lent = Lent::<u32>::new(room);
    let mut theirs = lent.inside().to_vec();
    let library = calls::make_move(case.word(), target, source, names, depth, lent.room());
    let due = reference::lent::make_move(case.profile, target, source, names, depth, &mut theirs);
    answered(case, "move", library, words(&due, with_place));
    case.same_lent("result", &lent, &theirs);
    (library[0] == 0).then(|| lent.inside()[..20 * library[2] as usize].to_vec())
}

/// Asks for the rows that an entry carries.
pub fn carried(case: &mut Case, left: &[u32], right: &[u32], entry: [u32; 3]) {
    let library = calls::carried(case.word(), left, right, entry);
    let part = reference::carried(case.profile, left, right, entry[0], entry[1], entry[2]);
    let mut due = [0; 8];
    if let Some(part) = part {
        due[..3].copy_from_slice(&[part.side, part.start as u32, part.words as u32]);
    }
    case.same("carried's answer", &library, &due);
    case.saw("carried");
    case.saw(&format!("carried from {}", library[0]));
    if part.is_none() {
        saw_twins(case, left, right, entry);
    }
}

/// Counts an entry that would carry rows if no table were due 16.
fn saw_twins(case: &mut Case, left: &[u32], right: &[u32], [kind, left_row, right_row]: [u32; 3]) {
    let there = match kind {
        LEFT_GETS => (right_row as usize) < right.len() / ROW,
        RIGHT_GETS => (left_row as usize) < left.len() / ROW,
        _ => false,
    };
    for (side, table) in [(LEFT, left), (RIGHT, right)] {
        let no = reference::check(case.profile, table).err();
        if there && no.is_some_and(|no| no.number == 16) {
            case.saw(&format!("carried none for 16 side {side}"));
        }
    }
}

/// Writes a table into a room of so many bytes; the text.
pub fn write(case: &mut Case, table: &[u32], room: usize) -> Option<Vec<u8>> {
    let mut lent = Lent::<u8>::new(room);
    let mut theirs = lent.inside().to_vec();
    let library = calls::write(case.word(), table, lent.room());
    let due = reference::lent::write(case.profile, table, &mut theirs);
    answered(case, "write", library, words(&due, with_place));
    case.same_lent("text", &lent, &theirs);
    (library[0] == 0).then(|| lent.inside()[..library[2] as usize].to_vec())
}

/// Reads a text into a room of so many words; the table.
pub fn read(case: &mut Case, text: &[u8], room: usize) -> Option<Vec<u32>> {
    let mut lent = Lent::<u32>::new(room);
    let mut theirs = lent.inside().to_vec();
    let library = calls::read(case.word(), text, lent.room());
    let due = reference::lent::read(case.profile, text, &mut theirs);
    answered(case, "read", library, words(&due, with_place));
    case.same_lent("table", &lent, &theirs);
    (library[0] == 0).then(|| lent.inside()[..20 * library[2] as usize].to_vec())
}
