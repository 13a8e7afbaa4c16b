//! The cases that document 01 gives by name.

mod common;

use common::{path, rows};
use reference::Profile::Exact;
use reference::{
    make_move, path_of, plan, reconcile, slots, table, write, Outcome, Rooms, CLASH, LEFT_GETS,
    MOST_BYTES, NO_ROW, RIGHT_GETS,
};

type Listed = &'static [(&'static str, u32)];

struct Case {
    name: &'static str,
    given: [Listed; 3],
    list: &'static [(u32, &'static str)],
    archive: Listed,
}

const F: u32 = 1;
const G: u32 = 2;
const NONE: Listed = &[];
/// An empty folder.
const EMPTY: u32 = 0;

const CASES: [Case; 11] = [
    Case {
        name: "C1",
        given: [NONE, NONE, NONE],
        list: &[],
        archive: NONE,
    },
    Case {
        name: "C2",
        given: [NONE, &[("p", F)], NONE],
        list: &[(RIGHT_GETS, "p")],
        archive: &[("p", F)],
    },
    Case {
        name: "C3",
        given: [NONE, &[("p", F)], &[("p", F)]],
        list: &[],
        archive: &[("p", F)],
    },
    Case {
        name: "C4",
        given: [NONE, &[("p", F)], &[("p", G)]],
        list: &[(CLASH, "p")],
        archive: NONE,
    },
    Case {
        name: "C5",
        given: [&[("p", F)], NONE, &[("p", F)]],
        list: &[(RIGHT_GETS, "p")],
        archive: NONE,
    },
    Case {
        name: "C6",
        given: [&[("p", F)], NONE, &[("p", G)]],
        list: &[(CLASH, "p")],
        archive: &[("p", F)],
    },
    Case {
        name: "C7",
        given: [&[("p", F)], NONE, NONE],
        list: &[],
        archive: NONE,
    },
    Case {
        name: "C8",
        given: [&[("p/x", F)], NONE, &[("p/x", G)]],
        list: &[(CLASH, "p")],
        archive: &[("p/x", F)],
    },
    Case {
        name: "C9",
        given: [&[("p/x", F)], &[("p", EMPTY)], &[("p", G)]],
        list: &[(CLASH, "p")],
        archive: &[("p/x", F)],
    },
    Case {
        name: "C10",
        given: [&[("p", F)], &[("p", EMPTY)], &[("p", F)]],
        list: &[(RIGHT_GETS, "p")],
        archive: &[("p", EMPTY)],
    },
    Case {
        name: "C11",
        given: [&[("p", F)], &[("p/x", F)], &[("p/y", G)]],
        list: &[(RIGHT_GETS, "p/x"), (LEFT_GETS, "p/y")],
        archive: &[("p/x", F), ("p/y", G)],
    },
];

/// The list with paths instead of rows, which must be those of the input tables.
fn listed(outcome: &Outcome, left: &[u32], right: &[u32]) -> Vec<(u32, reference::Path)> {
    let mut found = Vec::new();
    for [kind, left_row, right_row] in &outcome.list {
        let on_left = (*left_row != NO_ROW).then(|| path_of(Exact, left, *left_row));
        let on_right = (*right_row != NO_ROW).then(|| path_of(Exact, right, *right_row));
        if on_left.is_some() && on_right.is_some() {
            assert_eq!(on_left, on_right);
        }
        found.push((*kind, on_left.or(on_right).expect("a row on one side")));
    }
    found
}

#[test]
fn c1_to_c11() {
    for case in CASES {
        let [o, l, r] = case.given.map(rows);
        let outcome = reconcile(Exact, &o, &l, &r, Rooms::AMPLE).unwrap();
        let due: Vec<_> = case
            .list
            .iter()
            .map(|(kind, at)| (*kind, path(at)))
            .collect();
        assert_eq!(listed(&outcome, &l, &r), due, "{}", case.name);
        assert_eq!(outcome.archive, rows(case.archive), "{}", case.name);
        for kind in 1..=3u32 {
            let count = due.iter().filter(|entry| entry.0 == kind).count();
            assert_eq!(
                outcome.tally[kind as usize - 1] as usize,
                count,
                "{}",
                case.name
            );
        }
    }
}

/// Where a side gets something it has it afterwards, and a clash leaves both sides alone.
#[test]
fn c1_to_c11_new_sides() {
    for case in CASES {
        let [o, l, r] = case.given.map(rows);
        let outcome = reconcile(Exact, &o, &l, &r, Rooms::AMPLE).unwrap();
        if outcome.tally[2] > 0 {
            assert_eq!((&outcome.left, &outcome.right), (&l, &r), "{}", case.name);
        } else {
            assert_eq!(outcome.left, outcome.archive, "{}", case.name);
            assert_eq!(outcome.right, outcome.archive, "{}", case.name);
        }
    }
}

#[test]
fn c2_and_c11_in_numbers() {
    let [o, l, r] = CASES[1].given.map(rows);
    let outcome = reconcile(Exact, &o, &l, &r, Rooms::AMPLE).unwrap();
    assert_eq!(outcome.list_words(), [2, 1, NO_ROW]);
    assert_eq!(outcome.counts(), [2, 2, 2, 1]);
    let [o, l, r] = CASES[10].given.map(rows);
    let outcome = reconcile(Exact, &o, &l, &r, Rooms::AMPLE).unwrap();
    assert_eq!(outcome.list_words(), [2, 2, NO_ROW, 1, NO_ROW, 2]);
    assert_eq!(outcome.counts(), [4, 4, 4, 2]);
    assert_eq!(outcome.tally, [1, 1, 0]);
}

const C12: [Listed; 3] = [
    &[("L/d1", 1), ("L/d2", 2), ("R", EMPTY)],
    &[("L/d1", 3), ("L/d2", 2), ("L/d3", 4), ("R", EMPTY)],
    &[("L/d1", 5), ("L/d3", 4), ("R/d1", 6)],
];

fn printed(tables: &[Vec<u32>; 3]) -> String {
    let texts: Vec<_> = tables
        .iter()
        .map(|table| write(Exact, table, MOST_BYTES).unwrap())
        .collect();
    plan(Exact, [Some(&texts[0]), Some(&texts[1]), Some(&texts[2])])
}

#[test]
fn c12_and_c13() {
    let mut tables = C12.map(rows);
    assert_eq!(printed(&tables), "! ./L/d1\n< ./L/d2\n< ./R/d1\n= 2 0 1\n");
    let before = reconcile(Exact, &tables[0], &tables[1], &tables[2], Rooms::AMPLE).unwrap();
    let (names, depth) = slots(&path("L/d2"));
    let room = tables[1].len();
    tables[1] = make_move(Exact, &tables[1], &tables[2], &names, depth, room).unwrap();
    assert_eq!(printed(&tables), "! ./L/d1\n< ./R/d1\n= 1 0 1\n");
    let after = reconcile(Exact, &tables[0], &tables[1], &tables[2], Rooms::AMPLE).unwrap();
    assert_eq!((before.counts()[1], after.counts()[1]), (6, 6));
    assert_eq!(before.left, after.left);
    assert_eq!(before.right, after.right);
    assert_eq!(before.archive, after.archive);
}

#[test]
fn program_refusals() {
    let lone: &[u8] = b". type=dir\n";
    assert_eq!(plan(Exact, [Some(lone); 3]), "= 0 0 0\n");
    assert_eq!(plan(Exact, [None, None, None]), "refused archive 6 0\n");
    assert_eq!(
        plan(Exact, [Some(lone), None, Some(b"x")]),
        "refused left 6 0\n"
    );
    assert_eq!(
        plan(Exact, [Some(lone), Some(lone), Some(b"")]),
        "refused right 12 0\n"
    );
    let crowd = |rows| reference::generate::crowd(rows);
    assert_eq!(
        plan(
            Exact,
            [Some(&crowd(128)), Some(&crowd(128)), Some(&crowd(128))]
        ),
        "= 0 0 0\n"
    );
    // Two lines come first, then two for each row but the root.
    assert_eq!(
        plan(Exact, [Some(lone), Some(lone), Some(&crowd(129))]),
        "refused right 3 257\n"
    );
    let long = |bytes| reference::generate::padded(lone, bytes);
    assert_eq!(
        plan(Exact, [Some(&long(16_384)), Some(lone), Some(lone)]),
        "= 0 0 0\n"
    );
    assert_eq!(
        plan(Exact, [Some(&long(16_385)), Some(lone), Some(lone)]),
        "refused archive 6 0\n"
    );
}

#[test]
fn program_spells_names() {
    let left = table(&common::tree(&[("a b", 0), ("x#", 1)]));
    let tables = [rows(NONE), left, rows(NONE)];
    assert_eq!(printed(&tables), "> ./a\\040b\n> ./x\\043\n= 0 2 0\n");
}
