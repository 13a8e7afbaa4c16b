//! The calls, each measured beside the reference and a copy, and compared with the reference.

use std::hint::black_box;

use kantifero::{Buffers, Tally, MOST_ROWS, ROW};
use reference::generate::{self, Change, Random, Shape};
use reference::{Outcome, Profile, Rooms, RIGHT_GETS};

use crate::report::Line;
use crate::timing::times;
use crate::{inputs, named};

/// A profile as the library has it.
pub fn ours(profile: Profile) -> kantifero::Profile {
    match profile {
        Profile::Exact => kantifero::Profile::Exact,
        Profile::Folded => kantifero::Profile::Folded,
    }
}

/// Buffers of just the room that an outcome takes.
pub fn exact(outcome: &Outcome) -> reference::lent::Buffers {
    let rooms = Rooms {
        archive: outcome.archive.len(),
        left: outcome.left.len(),
        right: outcome.right.len(),
        list: outcome.list_words().len(),
    };
    reference::lent::Buffers::filled(rooms, 0)
}

/// Reconciles archive, left and right by the library.
pub fn library_reconcile(
    profile: Profile,
    tables: &[Vec<u32>; 3],
    lent: &mut reference::lent::Buffers,
) {
    let buffers = Buffers {
        archive: &mut lent.archive,
        left: &mut lent.left,
        right: &mut lent.right,
        list: &mut lent.list,
    };
    let mut tally = Tally::default();
    let [o, l, r] = black_box(tables);
    let counts = kantifero::reconcile(ours(profile), o, l, r, buffers, &mut tally);
    black_box(counts).expect("there is room");
}

/// A reconciliation of three tables, of which the first has as many rows as any.
pub fn reconcile(profile: Profile, shape: String, tables: [Vec<u32>; 3]) -> Line {
    let [archive, left, right] = &tables;
    let outcome = reference::reconcile(profile, archive, left, right, Rooms::AMPLE)
        .expect("no result has too many rows");
    let (mut ours, mut theirs, mut copied) = (exact(&outcome), exact(&outcome), exact(&outcome));
    let ([library, reference, copy], before) = times([
        &mut || library_reconcile(profile, &tables, &mut ours),
        &mut || {
            let [o, l, r] = black_box(&tables);
            let counts = reference::lent::reconcile(profile, o, l, r, &mut theirs);
            black_box(counts).expect("there is room");
        },
        &mut || {
            let made = black_box(&outcome);
            copied.archive.copy_from_slice(&made.archive);
            copied.left.copy_from_slice(&made.left);
            copied.right.copy_from_slice(&made.right);
            copied.list.copy_from_slice(made.list.as_flattened());
            black_box(&mut copied);
        },
    ]);
    ours.tally = theirs.tally;
    assert!(ours == theirs);
    Line {
        profile,
        call: "reconcile",
        shape,
        rows: tables[0].len() / ROW,
        all_rows: tables.iter().map(|table| table.len() / ROW).sum(),
        library,
        before,
        reference,
        copy,
    }
}

/// A move of an entry in the middle of the tree to another content, or away where it is a folder.
pub fn make_move(rng: &mut Random, profile: Profile, shape: Shape, rows: usize) -> Line {
    let three = generate::changed(rng, profile, shape, rows, Change::Moves);
    let [_, target, source] = three.tables();
    let paths = three.left.paths();
    let (names, depth) = reference::slots(&paths[rows / 2]);
    let taken = ours(profile);
    let mut moved = vec![0; MOST_ROWS * ROW];
    let (mut theirs, mut copied) = (moved.clone(), moved.clone());
    let ([library, reference, copy], before) = times([
        &mut || {
            let (target, source) = black_box((&target, &source));
            let rows = kantifero::make_move(taken, target, source, &names, depth, &mut moved);
            black_box(rows).expect("the path is the target's");
        },
        &mut || {
            let (target, source) = black_box((&target, &source));
            let moved = &mut theirs;
            let rows = reference::lent::make_move(profile, target, source, &names, depth, moved);
            black_box(rows).expect("the path is the target's");
        },
        &mut || {
            copied[..target.len()].copy_from_slice(black_box(&target));
            black_box(&mut copied);
        },
    ]);
    assert!(moved == theirs);
    Line {
        profile,
        call: "move",
        shape: named(shape, "moves"),
        rows,
        all_rows: 2 * rows,
        library,
        before,
        reference,
        copy,
    }
}

/// The rows of an entry of the left in the middle of the tree.
pub fn carried(rng: &mut Random, profile: Profile, shape: Shape, rows: usize) -> Line {
    let [_, left, right] = generate::changed(rng, profile, shape, rows, Change::Moves).tables();
    let (taken, row) = (ours(profile), rows as u32 / 2);
    let part = reference::carried(profile, &left, &right, RIGHT_GETS, row, row);
    let part = part.expect("the row is the left's");
    let due = &left[part.start..][..part.words];
    let mut copied = due.to_vec();
    let ([library, reference, copy], before) = times([
        &mut || {
            let (left, right) = black_box((&left, &right));
            let rows = kantifero::carried(taken, left, right, [RIGHT_GETS, row, row]);
            assert_eq!(black_box(rows).len(), due.len());
        },
        &mut || {
            let (left, right) = black_box((&left, &right));
            let part = reference::carried(profile, left, right, RIGHT_GETS, row, row);
            black_box(part).expect("the row is the left's");
        },
        &mut || {
            copied.copy_from_slice(black_box(due));
            black_box(&mut copied);
        },
    ]);
    Line {
        profile,
        call: "carried",
        shape: named(shape, "moves"),
        rows,
        all_rows: 2 * rows,
        library,
        before,
        reference,
        copy,
    }
}

/// The check of a good table.
pub fn check(rng: &mut Random, profile: Profile, shape: Shape, rows: usize) -> Line {
    let table = reference::table(&generate::shaped(rng, profile, shape, rows));
    let taken = ours(profile);
    let mut copied = table.clone();
    let ([library, reference, copy], before) = times([
        &mut || {
            black_box(kantifero::check(taken, black_box(&table))).expect("a good table");
        },
        &mut || {
            black_box(reference::check(profile, black_box(&table))).expect("a good table");
        },
        &mut || {
            copied.copy_from_slice(black_box(&table));
            black_box(&mut copied);
        },
    ]);
    Line {
        profile,
        call: "check",
        shape: named(shape, "files"),
        rows,
        all_rows: rows,
        library,
        before,
        reference,
        copy,
    }
}

/// A text that is read.
pub fn read(profile: Profile, shape: String, text: &[u8], rows: usize) -> Line {
    let taken = ours(profile);
    let mut made = vec![0; rows * ROW];
    let mut theirs = made.clone();
    let mut copied = made.clone();
    let table = reference::read(profile, text, rows * ROW).expect("a good text");
    let ([library, reference, copy], before) = times([
        &mut || {
            let rows = kantifero::read(taken, black_box(text), &mut made);
            black_box(rows).expect("a good text");
        },
        &mut || {
            let rows = reference::lent::read(profile, black_box(text), &mut theirs);
            black_box(rows).expect("a good text");
        },
        &mut || {
            copied.copy_from_slice(black_box(&table));
            black_box(&mut copied);
        },
    ]);
    assert!(made == theirs);
    Line {
        profile,
        call: "read",
        shape,
        rows,
        all_rows: rows,
        library,
        before,
        reference,
        copy,
    }
}

/// A table that is written.
pub fn write(profile: Profile, shape: String, table: &[u32], bytes: usize) -> Line {
    let taken = ours(profile);
    let mut made = vec![0; bytes];
    let mut theirs = made.clone();
    let mut copied = made.clone();
    let text = inputs::text_of(profile, table);
    let rows = table.len() / ROW;
    let ([library, reference, copy], before) = times([
        &mut || {
            let bytes = kantifero::write(taken, black_box(table), &mut made);
            black_box(bytes).expect("it fits");
        },
        &mut || {
            let bytes = reference::lent::write(profile, black_box(table), &mut theirs);
            black_box(bytes).expect("it fits");
        },
        &mut || {
            copied.copy_from_slice(black_box(&text));
            black_box(&mut copied);
        },
    ]);
    assert!(made == theirs);
    Line {
        profile,
        call: "write",
        shape,
        rows,
        all_rows: rows,
        library,
        before,
        reference,
        copy,
    }
}
