//! Document 02's A1, letter case: tables, their order and the refusals, rows to carry, and texts.

mod common;

use common::{no, path_in, rows_in};
use reference::lent::{self, Buffers};
use reference::Profile::{self, Exact, Folded};
use reference::{
    carried, check, make_move, name_words, read, reconcile, slots, write, Rooms, MOST_BYTES,
    MOST_ROWS, NO_ROW, ROW,
};

/// A table of files with these names one after the other, in this order.
fn flat<N: AsRef<[u8]>>(names: &[N]) -> Vec<u32> {
    nested(&names.iter().map(|name| (1, name)).collect::<Vec<_>>())
}

/// A table of these depths and names in this order: a folder where the next one is deeper.
fn nested<N: AsRef<[u8]>>(rows: &[(u32, N)]) -> Vec<u32> {
    let mut words = vec![0; ROW];
    for (i, (depth, name)) in rows.iter().enumerate() {
        let folder = rows.get(i + 1).is_some_and(|next| next.0 > *depth);
        words.extend([*depth, u32::from(!folder)]);
        words.extend(name_words(name.as_ref()));
        words.extend([0; 10]);
    }
    words
}

/// Number and row of a checked table, 0 and 0 if it is good.
fn said<N: AsRef<[u8]>>(profile: Profile, names: &[N]) -> (u32, u32) {
    said_of(profile, &flat(names))
}

fn said_of(profile: Profile, table: &[u32]) -> (u32, u32) {
    let answer = check(profile, table);
    answer.map_or_else(|no| (no.number, no.place), |_| (0, 0))
}

#[test]
fn a_to_z_and_no_other_byte_is_folded() {
    for one in (1..=255u8).filter(|byte| !b"./".contains(byte)) {
        for other in (1..=255u8).filter(|byte| !b"./".contains(byte)) {
            let twins = one == other
                || (one.abs_diff(other) == 32
                    && (65..=90).contains(&one.min(other))
                    && (97..=122).contains(&one.max(other)));
            let due = twins.then_some(16);
            let answer = said(Folded, &[[one], [other]]).0;
            assert_eq!((answer == 16).then_some(16), due, "{one} {other}");
        }
    }
}

#[test]
fn letters_beyond_ascii_keep_their_case() {
    for pair in [["\u{c9}", "\u{e9}"], ["\u{391}", "\u{3b1}"]] {
        assert_eq!(said(Folded, &pair), (0, 0));
    }
    assert_eq!(said(Folded, &[b"\xc9", b"\xe9"]), (0, 0));
}

#[test]
fn siblings_stand_in_folded_order() {
    // `_` is 95, B is 66 and b is 98.
    assert_eq!(said(Folded, &["_", "B"]), (0, 0));
    assert_eq!(said(Exact, &["_", "B"]), (2, 2));
    assert_eq!(said(Exact, &["B", "_"]), (0, 0));
    assert_eq!(said(Folded, &["B", "_"]), (2, 2));
    assert_eq!(
        said(Folded, &["@", "[", "_", "`", "A", "b", "Z", "{"]),
        (0, 0)
    );
    assert_eq!(said(Folded, &["a", "B", "c"]), (0, 0));
    assert_eq!(said(Folded, &["A", "Ab", "aBc"]), (0, 0));
    assert_eq!(said(Folded, &["Ab", "a"]), (2, 2));
}

#[test]
fn equal_siblings_are_16_at_the_second() {
    assert_eq!(said(Folded, &["a", "A"]), (16, 2));
    assert_eq!(said(Folded, &["A", "a"]), (16, 2));
    assert_eq!(said(Folded, &["Day1", "day1"]), (16, 2));
    assert_eq!(said(Exact, &["Day1", "day1"]), (0, 0));
    // Equal to the byte: instead of 2.
    assert_eq!(said(Folded, &["a", "a"]), (16, 2));
    assert_eq!(said(Exact, &["a", "a"]), (2, 2));
    // Out of order stays 2, though it equals the first.
    assert_eq!(said(Folded, &["a", "b", "A"]), (2, 3));
    assert_eq!(said(Folded, &["a", "A", "a"]), (16, 2));
    assert_eq!(said(Folded, &["a", "b", "B", "c", "C"]), (16, 3));
}

#[test]
fn rows_beneath_the_first_do_not_matter() {
    let table = nested(&[(1, "a"), (2, "x"), (2, "y"), (1, "A"), (2, "X")]);
    assert_eq!(said_of(Folded, &table), (16, 4));
    // The lowest second one, though its pair is deeper.
    let table = nested(&[(1, "a"), (2, "x"), (2, "X"), (1, "A"), (2, "X")]);
    assert_eq!(said_of(Folded, &table), (16, 3));
    // The same name in two folders, and beneath itself.
    let table = nested(&[(1, "a"), (2, "A"), (3, "a"), (1, "b"), (2, "A")]);
    assert_eq!(said_of(Folded, &table), (0, 0));
}

#[test]
fn names_that_differ_in_the_last_of_32_bytes() {
    let long = |last: &str| format!("{}{last}", "abcdefghijklmnopqrstuvwxyz01234");
    let loud = |last: &str| format!("{}{last}", "ABCDEFGHIJKLMNOPQRSTUVWXYZ01234");
    assert_eq!(said(Folded, &[long("y"), loud("Z")]), (0, 0));
    assert_eq!(said(Folded, &[loud("Y"), long("z")]), (0, 0));
    assert_eq!(said(Folded, &[long("z"), loud("Z")]), (16, 2));
    assert_eq!(said(Folded, &[loud("z"), long("Y")]), (2, 2));
}

#[test]
fn a_bad_row_comes_before_twins() {
    let mut table = flat(&["a", "A", "b"]);
    table[3 * ROW + 1] = 2;
    assert_eq!(said_of(Folded, &table), (2, 3));
    table.push(0);
    assert_eq!(said_of(Folded, &table), (1, 0));
    assert_eq!(said(Folded, &["a", "A", "c", "b"]), (2, 4));
}

#[test]
fn reconciling_looks_for_16_after_1_and_2_of_all_tables() {
    let (good, twins, unsorted) = (flat(&["a"]), flat(&["a", "A"]), flat(&["b", "a"]));
    let short = &good[1..];
    let none = Rooms {
        archive: 0,
        left: 0,
        right: 0,
        list: 0,
    };
    let run = |o: &[u32], l: &[u32], r: &[u32]| no(reconcile(Folded, o, l, r, none));
    assert_eq!(run(&twins, &good, &unsorted), [2, 3, 2]);
    assert_eq!(run(&twins, short, &twins), [1, 2, 0]);
    assert_eq!(run(&twins, &twins, &twins), [16, 1, 2]);
    assert_eq!(run(&good, &twins, &twins), [16, 2, 2]);
    assert_eq!(run(&good, &good, &twins), [16, 3, 2]);
    assert_eq!(run(&good, &good, &good), [3, 1, 0]);
}

#[test]
fn a_move_and_the_writer_look_for_16() {
    let (good, twins, unsorted) = (flat(&["a"]), flat(&["a", "A"]), flat(&["b", "a"]));
    // Depth 0 is 5, which comes later.
    let go = |t: &[u32], s: &[u32]| no(make_move(Folded, t, s, &[[0; 8]; 16], 0, 0));
    assert_eq!(go(&twins, &unsorted), [2, 3, 2]);
    assert_eq!(go(&twins, &twins), [16, 2, 2]);
    assert_eq!(go(&good, &twins), [16, 3, 2]);
    assert_eq!(go(&good, &good), [5, 0, 0]);
    let (names, depth) = slots(&path_in(Folded, "none/x"));
    let absent = make_move(Folded, &good, &twins, &names, depth, 0);
    assert_eq!(no(absent), [16, 3, 2]);
    assert_eq!(no(write(Folded, &twins, 0)), [16, 1, 2]);
    assert_eq!(no(write(Folded, &good, 0)), [3, 1, 0]);
    assert_eq!(no(write(Exact, &twins, 0)), [2, 1, 2]);
}

#[test]
fn a_table_due_16_gives_no_rows_to_carry() {
    let (good, twins) = (flat(&["a"]), flat(&["A", "a"]));
    for kind in [1, 2] {
        assert!(carried(Folded, &good, &good, kind, 1, 1).is_some());
        assert_eq!(carried(Folded, &twins, &good, kind, 1, 1), None);
        assert_eq!(carried(Folded, &good, &twins, kind, 1, 1), None);
        assert!(carried(Exact, &good, &twins, kind, 1, 1).is_some());
    }
}

#[test]
fn a_refusal_leaves_the_buffers() {
    let twins = flat(&["a", "A"]);
    let mut lent = Buffers::filled(Rooms::AMPLE, 9);
    let answer = lent::reconcile(Folded, &twins, &twins, &twins, &mut lent);
    assert_eq!(no(answer), [16, 1, 2]);
    assert!(lent == Buffers::filled(Rooms::AMPLE, 9));
    let mut words = [9; 100];
    let text = b". type=dir\na type=dir\n..\nA type=dir\n";
    assert_eq!(no(lent::read(Folded, text, &mut words)), [13, 0, 4]);
    assert_eq!(words, [0; 100]);
    assert_eq!(lent::read(Exact, text, &mut words), Ok(3));
}

/// Number and place of a refused text, or 0 and its rows.
fn text_said(profile: Profile, text: &str) -> (u32, u32) {
    match read(profile, text.as_bytes(), MOST_ROWS * ROW) {
        Ok(table) => (0, (table.len() / ROW) as u32),
        Err(refusal) => (refusal.number, refusal.place),
    }
}

#[test]
fn a_name_twice_by_folded_names() {
    for (text, exact, folded) in [
        ("/set type=dir\n.\na\n..\nA\n", (0, 3), (13, 5)),
        ("/set type=dir\n.\na\n..\n\\101\n", (0, 3), (13, 5)),
        ("/set type=dir\n.\n\\101\n..\n\\141\n", (0, 3), (13, 5)),
        ("/set type=dir\n.\na\n..\n\\141\n", (13, 5), (13, 5)),
        ("/set type=dir\n.\nb\n..\na\n..\nB\n", (0, 4), (13, 7)),
        // Within itself it is another.
        ("/set type=dir\n.\na\nA\na\n", (0, 4), (0, 4)),
        ("/set type=dir\n.\n\\311\n..\n\\351\n", (0, 3), (0, 3)),
        (
            "/set type=dir\n.\n@\n..\n`\n..\n\\133\n..\n{\n",
            (0, 5),
            (0, 5),
        ),
        // 9 and 10 come before 13, and a file twins with a folder.
        ("/set type=dir\n.\na\n..\nA type=x\n", (10, 5), (10, 5)),
        ("/set type=dir\n.\na\n..\nA type=file\n", (9, 5), (9, 5)),
    ] {
        assert_eq!(text_said(Exact, text), exact, "{text:?}");
        assert_eq!(text_said(Folded, text), folded, "{text:?}");
    }
    let deep = format!("/set type=dir\n.\n{}..\nX\n..\nx\n", "a\n".repeat(16));
    assert_eq!(text_said(Folded, &deep), (13, 22));
    let deeper = format!("/set type=dir\n.\n{}A\n", "a\n".repeat(16));
    assert_eq!(text_said(Folded, &deeper), (14, 19));
    // 13 comes before 3.
    let room = read(Folded, b"/set type=dir\n.\na\n..\nA\n", 2 * ROW);
    assert_eq!(no(room), [13, 0, 5]);
}

#[test]
fn a_text_is_read_in_folded_order_with_its_spelling() {
    let text = b"/set type=dir\n.\nB\n..\n_\n..\na\n\\131\n..\nX\n..\n..\n\\101b\n";
    let due = [("_", 0), ("a/X", 0), ("a/Y", 0), ("Ab", 0), ("B", 0)];
    assert_eq!(read(Folded, text, 7 * ROW), Ok(rows_in(Folded, &due)));
    let names = [(1, "_"), (1, "a"), (2, "X"), (2, "Y"), (1, "Ab"), (1, "B")];
    let mut folders = nested(&names);
    folders.chunks_mut(ROW).for_each(|row| row[1] = 0);
    assert_eq!(rows_in(Folded, &due), folders);
    // Where case counts the same text has another order.
    let due = [("Ab", 0), ("B", 0), ("_", 0), ("a/X", 0), ("a/Y", 0)];
    assert_eq!(read(Exact, text, 7 * ROW), Ok(rows_in(Exact, &due)));
}

#[test]
fn a_table_is_written_in_its_order_as_it_is_spelled() {
    let table = rows_in(Folded, &[("_", 0), ("A", 0), ("b\u{c9}", 0)]);
    let due = "#mtree\n. type=dir\n_ type=dir\n..\nA type=dir\n..\nb\\303\\211 type=dir\n..\n..\n";
    assert_eq!(write(Folded, &table, MOST_BYTES).unwrap(), due.as_bytes());
    assert_eq!(no(write(Exact, &table, MOST_BYTES)), [2, 1, 2]);
    // Written where case counts, a table is read in the other order.
    let exact = rows_in(Exact, &[("A", 0), ("_", 0), ("b\u{c9}", 0)]);
    let text = write(Exact, &exact, MOST_BYTES).unwrap();
    assert_eq!(read(Folded, &text, MOST_ROWS * ROW), Ok(table));
}

/// Where every byte counts nothing is new: two spellings are two files.
#[test]
fn where_case_counts() {
    let (left, right) = (flat(&["Day1"]), flat(&["day1"]));
    let run = reconcile(Exact, &[0; ROW], &left, &right, Rooms::AMPLE).unwrap();
    assert_eq!(run.list, [[2, 1, NO_ROW], [1, NO_ROW, 1]]);
    assert_eq!(run.left, flat(&["Day1", "day1"]));
    assert_eq!((&run.right, &run.archive), (&run.left, &run.left));
    let run = reconcile(Folded, &[0; ROW], &left, &right, Rooms::AMPLE).unwrap();
    assert_eq!((run.list, run.archive), (vec![], left));
}
