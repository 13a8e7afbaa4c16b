//! Letter case ignored, through the wrapper: each call in both profiles.
mod common;

use common::{file, row, tree};
use kantifero::Profile::{Exact, Folded};
use kantifero::{Refusal, NO_ROW};

/// A folder of the root with one file.
fn within(folder: &[u8], name: &[u8], digest: u32) -> Vec<u32> {
    tree(&[row(1, 0, folder, 0), row(2, 1, name, digest)])
}

fn refused(number: u32, side: u32, place: u32) -> Refusal {
    Refusal {
        number,
        side,
        place,
    }
}

#[test]
fn siblings_of_one_key_are_16_after_1_and_2_of_all_tables() {
    let twins = tree(&[file(b"A", 1), file(b"a", 2)]);
    let unsorted = tree(&[file(b"b", 1), file(b"a", 2)]);
    assert_eq!(kantifero::check(Exact, &twins), Ok(()));
    assert_eq!(kantifero::check(Folded, &twins), Err(refused(16, 1, 2)));
    let run = |o: &[u32], l: &[u32], r: &[u32]| kantifero::reconcile_in_new(Folded, o, l, r);
    let none = tree(&[]);
    assert_eq!(run(&twins, &none, &none), Err(refused(16, 1, 2)));
    assert_eq!(run(&twins, &none, &unsorted), Err(refused(2, 3, 2)));
    let message = refused(16, 3, 2).to_string();
    assert!(message.ends_with("right or source, row 2"), "{message}");
}

#[test]
fn a_spelling_is_no_change_and_each_side_keeps_its_own() {
    let (o, l, r) = (
        within(b"P", b"DAY", 1),
        within(b"p", b"Day", 1),
        within(b"p", b"day", 1),
    );
    let run = kantifero::reconcile_in_new(Folded, &o, &l, &r).unwrap();
    assert!(run.list.is_empty());
    assert_eq!((&run.left, &run.right, &run.archive), (&l, &r, &l));
    let run = kantifero::reconcile_in_new(Exact, &o, &l, &r).unwrap();
    assert_eq!(run.list, [[2, 2, NO_ROW], [1, NO_ROW, 2]]);
}

#[test]
fn a_clash_keeps_the_archives_spelling_beneath_the_new_lefts_folder() {
    let (o, l, r) = (
        within(b"Q", b"Day", 1),
        within(b"q", b"DAY", 2),
        within(b"Q", b"day", 3),
    );
    let run = kantifero::reconcile_in_new(Folded, &o, &l, &r).unwrap();
    assert_eq!(run.list, [[3, 2, 2]]);
    assert_eq!(run.archive, within(b"q", b"Day", 1));
    assert_eq!((&run.left, &run.right), (&l, &r));
}

#[test]
fn a_move_keeps_the_targets_spelling_and_takes_the_sources_for_what_is_new() {
    let target = within(b"P", b"X", 1);
    let source = tree(&[row(1, 0, b"p", 0), row(2, 1, b"w", 2), row(2, 1, b"x", 3)]);
    let due = tree(&[row(1, 0, b"P", 0), row(2, 1, b"w", 2), row(2, 1, b"X", 3)]);
    let mut names = [[0; 8]; 16];
    let mut result = [0; 80];
    for spelled in [b"p", b"P"] {
        names[0] = kantifero::name(spelled).unwrap();
        let answer = kantifero::make_move(Folded, &target, &source, &names, 1, &mut result);
        assert_eq!((answer, &result[..]), (Ok(4), &due[..]));
    }
}

#[test]
fn rows_are_carried_as_their_table_spells_them() {
    let (left, twins) = (within(b"P", b"X", 1), tree(&[file(b"A", 1), file(b"a", 2)]));
    let entry = [2, 1, NO_ROW];
    assert_eq!(
        kantifero::carried(Folded, &left, &tree(&[]), entry),
        &left[20..]
    );
    assert!(kantifero::carried(Folded, &left, &twins, entry).is_empty());
    assert_eq!(kantifero::carried(Exact, &left, &twins, entry), &left[20..]);
}

#[test]
fn a_table_in_folded_order_is_written_and_read_in_that_profile() {
    // `_` is 95: before `B` as b, 98, and after it as itself, 66.
    let table = tree(&[file(b"a", 1), file(b"_", 2), file(b"B", 3)]);
    let table = {
        assert_eq!(kantifero::check(Folded, &table), Err(refused(2, 1, 2)));
        tree(&[file(b"_", 2), file(b"a", 1), file(b"B", 3)])
    };
    let mut text = [0; 512];
    assert_eq!(
        kantifero::write(Exact, &table, &mut text),
        Err(refused(2, 1, 3))
    );
    let bytes = kantifero::write(Folded, &table, &mut text).unwrap();
    let mut back = [0; 80];
    assert_eq!(kantifero::read(Folded, &text[..bytes], &mut back), Ok(4));
    assert_eq!(&back[..], &table[..]);
    assert_eq!(kantifero::read(Exact, &text[..bytes], &mut back), Ok(4));
    assert_eq!(
        &back[..],
        &tree(&[file(b"B", 3), file(b"_", 2), file(b"a", 1)])[..]
    );
}
