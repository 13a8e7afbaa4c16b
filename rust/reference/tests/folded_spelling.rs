//! Document 02's A1, letter case: what moves and runs do, and how their results are spelled.

mod common;

use common::{no, path_in, rows_in, tree_in};
use reference::generate::{self, Random};
use reference::Profile::{Exact, Folded};
use reference::{
    check, make_move, plan, reconcile, slots, table, write, Answer, Outcome, Path, Rooms, CLASH,
    LEFT_GETS, MOST_BYTES, NO_ROW, RIGHT_GETS, ROW,
};

type Listed<'a> = &'a [(&'a str, u32)];

/// The table of a tree where case is ignored.
fn rows(listed: Listed) -> Vec<u32> {
    rows_in(Folded, listed)
}

fn moved(target: Listed, source: Listed, path: &str) -> Answer<Vec<u32>> {
    let (names, depth) = slots(&path_in(Folded, path));
    make_move(Folded, &rows(target), &rows(source), &names, depth, 1000)
}

/// Archive, left and right as files of content numbers, 0 an empty folder.
fn run(given: [Listed; 3]) -> Outcome {
    let [o, l, r] = given.map(rows);
    reconcile(Folded, &o, &l, &r, Rooms::AMPLE).unwrap()
}

/// The list and the new archive, left and right that are due.
fn due(given: [Listed; 3], list: &[[u32; 3]], new: [Listed; 3]) {
    let outcome = run(given);
    assert_eq!(outcome.list, list, "{given:?}");
    let [archive, left, right] = new.map(rows);
    assert_eq!(outcome.left, left, "new left of {given:?}");
    assert_eq!(outcome.right, right, "new right of {given:?}");
    assert_eq!(outcome.archive, archive, "new archive of {given:?}");
}

#[test]
fn a_moves_path_is_matched_by_key_and_its_spelling_used_nowhere() {
    for path in ["p/x", "P/X", "P/x", "p/X"] {
        let now = moved(&[("P/x", 1)], &[("p/X", 2)], path);
        assert_eq!(now, Ok(rows(&[("P/x", 2)])), "{path}");
    }
    for path in ["NEW", "new", "nEw"] {
        let now = moved(&[], &[("New/Day", 1)], path);
        assert_eq!(now, Ok(rows(&[("New/Day", 1)])), "{path}");
    }
    assert_eq!(moved(&[("Old", 1)], &[], "oLD"), Ok(rows(&[])));
}

#[test]
fn a_move_keeps_the_targets_spelling_at_each_path_that_it_has() {
    let now = moved(&[("P/X", 1)], &[("p/x", 2), ("p/w", 3)], "p");
    assert_eq!(now, Ok(rows(&[("P/w", 3), ("P/X", 2)])));
    // Deeper down, and beside what is moved.
    let target = [("A/B/C", 1), ("A/D", 1), ("E/F", 1)];
    let source = [("a/b/c", 2), ("a/b/cc", 2), ("a/d/x", 2), ("e/f", 9)];
    let now = moved(&target, &source, "a");
    let due = [("A/B/C", 2), ("A/B/cc", 2), ("A/D/x", 2), ("E/F", 1)];
    assert_eq!(now, Ok(rows(&due)));
    // The folders above the path are the target's, also where the entry is new.
    let now = moved(&[("A/B", 0)], &[("a/b/New/Day", 1)], "a/b/new");
    assert_eq!(now, Ok(rows(&[("A/B/New/Day", 1)])));
}

#[test]
fn a_move_keeps_it_whatever_kinds_stand_there() {
    let now = moved(&[("a", 1)], &[("A/B", 2)], "a");
    assert_eq!(now, Ok(rows(&[("a/B", 2)])));
    let now = moved(&[("A/B", 2)], &[("a", 1)], "a");
    assert_eq!(now, Ok(rows(&[("A", 1)])));
    let now = moved(
        &[("p/A", 1), ("p/B/c", 1)],
        &[("P/a/X", 2), ("P/b", 2)],
        "p",
    );
    assert_eq!(now, Ok(rows(&[("p/A/X", 2), ("p/B", 2)])));
}

#[test]
fn a_moves_refusals_by_bytes_and_by_key() {
    assert_eq!(no(moved(&[("P", 1)], &[("p/x", 1)], "p/x")), [4, 0, 0]);
    assert_eq!(no(moved(&[("P", 0)], &[], "q/x")), [4, 0, 0]);
    assert_eq!(moved(&[("P", 0)], &[], "p/x"), Ok(rows(&[("P", 0)])));
    assert_eq!(no(moved(&[("P", 0)], &[], "p/.")), [5, 0, 0]);
    let (names, depth) = slots(&path_in(Folded, "p"));
    let target = rows(&[("P/X", 1)]);
    let source = rows(&[("p/x", 1), ("p/w", 1)]);
    let exact = make_move(Folded, &target, &source, &names, depth, 4 * ROW - 1);
    assert_eq!(no(exact), [3, 2, 0]);
}

#[test]
fn a_spelling_alone_is_no_change() {
    let [o, l, r]: [Listed; 3] = [&[("P/DAY", 1)], &[("p/Day", 1)], &[("p/day", 1)]];
    due([o, l, r], &[], [l, l, r]);
    // New on both sides, and the same.
    due([&[], l, r], &[], [l, l, r]);
    // Of one side alone.
    due([o, l, o], &[], [l, l, o]);
    due([o, o, r], &[], [o, o, r]);
    // A name that only the archive has goes.
    due([&[("GONE", 1)], &[], &[]], &[], [&[], &[], &[]]);
}

#[test]
fn a_folder_unlike_in_spelling_alone_is_unchanged() {
    let o: Listed = &[("Q/A", 1), ("Q/B/C", 1)];
    let same: Listed = &[("q/a", 1), ("q/b/c", 1)];
    due([o, same, &[]], &[[LEFT_GETS, 1, NO_ROW]], [&[], &[], &[]]);
    due([o, &[], same], &[[RIGHT_GETS, NO_ROW, 1]], [&[], &[], &[]]);
    let file: Listed = &[("Q", 7)];
    let taken: Listed = &[("q", 7)];
    due([o, same, file], &[[LEFT_GETS, 1, 1]], [taken, taken, file]);
}

#[test]
fn each_side_keeps_its_own_and_takes_the_others_for_what_is_new() {
    due(
        [&[("X", 1)], &[("x", 1)], &[("X", 2)]],
        &[[LEFT_GETS, 1, 1]],
        [&[("x", 2)], &[("x", 2)], &[("X", 2)]],
    );
    due(
        [&[("X", 1)], &[("x", 2)], &[("X", 1)]],
        &[[RIGHT_GETS, 1, 1]],
        [&[("x", 2)], &[("x", 2)], &[("X", 2)]],
    );
    due(
        [&[("P", 0)], &[("p/Left", 1)], &[("P/RIGHT", 2)]],
        &[[RIGHT_GETS, 2, NO_ROW], [LEFT_GETS, NO_ROW, 2]],
        [
            &[("p/Left", 1), ("p/RIGHT", 2)],
            &[("p/Left", 1), ("p/RIGHT", 2)],
            &[("P/Left", 1), ("P/RIGHT", 2)],
        ],
    );
    // A folder for a file, and within it nothing that the left had.
    due(
        [&[("N", 1)], &[("n", 1)], &[("N/Day", 2)]],
        &[[LEFT_GETS, 1, 1]],
        [&[("n/Day", 2)], &[("n/Day", 2)], &[("N/Day", 2)]],
    );
}

#[test]
fn the_archive_has_its_own_spelling_at_and_beneath_a_clash() {
    due(
        [&[("Q/Day", 1)], &[("q/DAY", 2)], &[("Q/day", 3)]],
        &[[CLASH, 2, 2]],
        [&[("q/Day", 1)], &[("q/DAY", 2)], &[("Q/day", 3)]],
    );
    let (l, r): (Listed, Listed) = (&[("q/DAY", 2)], &[("Q", 3)]);
    due(
        [&[("Q/Day", 1), ("Q/Old/One", 1)], l, r],
        &[[CLASH, 1, 1]],
        [&[("Q/Day", 1), ("Q/Old/One", 1)], l, r],
    );
    // Nothing where the archive has nothing, and the left's beside a clash.
    due(
        [
            &[("E", 0)],
            &[("e/x", 1), ("e/y", 1)],
            &[("E/X", 2), ("E/Y", 1)],
        ],
        &[[CLASH, 2, 2]],
        [
            &[("e/y", 1)],
            &[("e/x", 1), ("e/y", 1)],
            &[("E/X", 2), ("E/Y", 1)],
        ],
    );
}

#[test]
fn the_list_is_in_folded_order_and_its_rows_match_by_key() {
    let outcome = run([
        &[],
        &[("_", 1), ("B", 1), ("c", 1)],
        &[("A", 2), ("b", 2), ("D", 2)],
    ]);
    let due = [
        [RIGHT_GETS, 1, NO_ROW],
        [LEFT_GETS, NO_ROW, 1],
        [CLASH, 2, 2],
        [RIGHT_GETS, 3, NO_ROW],
        [LEFT_GETS, NO_ROW, 3],
    ];
    assert_eq!(
        (outcome.list.as_slice(), outcome.tally),
        (&due[..], [2, 2, 1])
    );
}

#[test]
fn a_plan_has_the_lefts_spelling_of_what_it_has_and_else_the_rights() {
    let given: [Listed; 3] = [
        &[("Dir/One", 1), ("Dir/Two", 1)],
        &[("DIR/one", 2), ("DIR/two", 1)],
        &[("dir/ONE", 3), ("dir/New", 1)],
    ];
    let texts = given.map(|tree| write(Folded, &rows(tree), MOST_BYTES).unwrap());
    let files = texts.each_ref().map(|text| Some(text.as_slice()));
    let due = "< ./dir/New\n! ./DIR/one\n< ./DIR/two\n= 2 0 1\n";
    assert_eq!(plan(Folded, files), due);
    assert_eq!(plan(Exact, files), "> ./DIR\n< ./dir\n= 1 1 0\n");
    let twice: &[u8] = b"/set type=dir\n.\na\n..\nA\n";
    let both = |profile| plan(profile, [files[0], Some(twice), None]);
    assert_eq!(both(Folded), "refused left 13 5\n");
    assert_eq!(both(Exact), "refused right 6 0\n");
}

/// The spelling of a path in a table, if it has the path.
fn spelled(table: &[u32], path: &Path) -> Option<Vec<Vec<u8>>> {
    let names = check(Folded, table).unwrap().spelled(path)?;
    Some(names.iter().map(|name| name.spelled().to_vec()).collect())
}

/// The spelling of each path of the results by the sentence about it, over random trees.
#[test]
fn results_are_spelled_by_the_sentences() {
    let mut rng = Random::new(14);
    let mut seen = [0; 4];
    for _ in 0..600 {
        let size = generate::size(&mut rng).min(25);
        let [o, l, r] = generate::three(&mut rng, Folded, size).tables();
        let new = reconcile(Folded, &o, &l, &r, Rooms::AMPLE).unwrap();
        let last = |table: &[u32], path: &Path| spelled(table, path)?.pop();
        let paths = |table: &[u32]| check(Folded, table).unwrap().paths();
        for path in &paths(&new.left)[1..] {
            seen[usize::from(last(&l, path).is_none())] += 1;
            let due = last(&l, path).or(last(&r, path));
            assert_eq!(last(&new.left, path), due);
        }
        for path in &paths(&new.right)[1..] {
            let due = last(&r, path).or(last(&l, path));
            assert_eq!(last(&new.right, path), due);
        }
        let (left, right) = (paths(&l), paths(&r));
        let clashes: Vec<&Path> = (new.list.iter().filter(|entry| entry[0] == CLASH))
            .map(|entry| match entry[1] {
                NO_ROW => &right[entry[2] as usize],
                row => &left[row as usize],
            })
            .collect();
        for path in &paths(&new.archive)[1..] {
            let clash = clashes.iter().any(|clash| path.starts_with(clash));
            seen[2 + usize::from(clash)] += 1;
            let due = last(if clash { &o } else { &new.left }, path);
            assert_eq!(last(&new.archive, path), due);
        }
    }
    assert!(seen.iter().all(|&count| count > 200), "{seen:?}");
}

/// Two trees that differ in spelling alone are equal, and their tables are not.
#[test]
fn trees_are_equal_after_folding() {
    let (one, other) = (
        tree_in(Folded, &[("A/b", 1)]),
        tree_in(Folded, &[("a/B", 1)]),
    );
    assert_eq!(one, other);
    assert_ne!(table(&one), table(&other));
    let (one, other) = (tree_in(Exact, &[("A/b", 1)]), tree_in(Exact, &[("a/B", 1)]));
    assert_ne!(one, other);
}
