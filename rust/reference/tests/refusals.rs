//! The order of the numbers outside reading, rooms, and what is left in lent buffers.

mod common;

use common::{no, path, rows, wide};
use reference::lent::{self, Buffers};
use reference::Profile::Exact;
use reference::{
    check, make_move, numbers, reconcile, slots, table, write, Node, Refusal, Rooms, MOST_ROWS,
    NO_ROW, ROW,
};

#[test]
fn order_of_the_tables() {
    let good = rows(&[("p", 1)]);
    let short = &good[..39];
    let mut bad = good.clone();
    bad[ROW + 1] = 2;
    let run = |o: &[u32], l: &[u32], r: &[u32]| no(reconcile(Exact, o, l, r, Rooms::AMPLE));
    assert_eq!(run(&bad, short, short), [2, 1, 1]);
    assert_eq!(run(short, &bad, &bad), [1, 1, 0]);
    assert_eq!(run(&good, &bad, short), [2, 2, 1]);
    assert_eq!(run(&good, short, &bad), [1, 2, 0]);
    assert_eq!(run(&good, &good, &bad), [2, 3, 1]);
    assert_eq!(run(&good, &good, short), [1, 3, 0]);
    let (names, depth) = slots(&path("p"));
    let go = |t: &[u32], s: &[u32]| no(make_move(Exact, t, s, &names, depth, 0));
    assert_eq!(go(&bad, short), [2, 2, 1]);
    assert_eq!(go(short, &bad), [1, 2, 0]);
    assert_eq!(go(&good, &bad), [2, 3, 1]);
    assert_eq!(go(&good, short), [1, 3, 0]);
    assert_eq!(go(&good, &good), [3, 2, 0]);
    assert_eq!(no(write(Exact, short, 0)), [1, 1, 0]);
    assert_eq!(no(write(Exact, &bad, 0)), [2, 1, 1]);
    assert_eq!(no(write(Exact, &good, 0)), [3, 1, 0]);
}

#[test]
fn rooms_in_order_and_whole_rows() {
    let (o, l) = (rows(&[]), rows(&[("p", 1)]));
    let mut rooms = Rooms {
        archive: 39,
        left: 39,
        right: 39,
        list: 2,
    };
    for side in 1..=4 {
        assert_eq!(no(reconcile(Exact, &o, &l, &o, rooms)), [3, side, 0]);
        match side {
            1 => rooms.archive = 40,
            2 => rooms.left = 59,
            3 => rooms.right = 40,
            _ => rooms.list = 5,
        }
    }
    assert!(reconcile(Exact, &o, &l, &o, rooms).is_ok());
}

#[test]
fn results_over_the_limit() {
    let full = wide(MOST_ROWS);
    let one_more = rows(&[("p", 1)]);
    let ample = Rooms {
        archive: 1 << 20,
        left: 1 << 20,
        right: 1 << 20,
        list: 1 << 20,
    };
    // All of the left is new and so is p on the right: 4,097 rows in each result.
    assert_eq!(
        no(reconcile(Exact, &rows(&[]), &full, &one_more, ample)),
        [3, 1, 0]
    );
    // With a clash at every left name the archive stays small, and nothing grows.
    let mut other = full.clone();
    for row in 1..MOST_ROWS {
        other[row * ROW + 19] = 7;
    }
    let outcome = reconcile(Exact, &rows(&[]), &full, &other, ample).unwrap();
    assert_eq!(outcome.counts(), [1, 4096, 4096, 4095]);
    // An archive full of clashes leaves no room in it for p, which both sides have got.
    let (mut o, mut l, mut r) = (
        check(Exact, &full).unwrap(),
        check(Exact, &other).unwrap(),
        Node::default(),
    );
    for side in [&mut l, &mut r] {
        side.put(&path("a"), Some(Node::default()));
    }
    let first = o.paths()[1].clone();
    l.put(&first, None);
    assert_eq!(l.rows(), MOST_ROWS);
    r.put(&path("a/b"), Some(common::file(1)));
    assert_eq!(
        no(reconcile(Exact, &table(&o), &table(&l), &table(&r), ample)),
        [3, 1, 0]
    );
    // A clash that the archive has nothing of makes it one row smaller.
    let second = o.paths()[2].clone();
    o.put(&second, None);
    r.put(&second, Some(common::file(9)));
    assert_eq!(
        no(reconcile(Exact, &table(&o), &table(&l), &table(&r), ample)),
        [3, 2, 0]
    );
    // The right is the one that grows where left and right change places.
    assert_eq!(
        no(reconcile(Exact, &table(&o), &table(&r), &table(&l), ample)),
        [3, 3, 0]
    );
}

#[test]
fn a_list_has_the_lent_room_only() {
    let (old, mut new) = (wide(MOST_ROWS), wide(MOST_ROWS));
    for row in 1..MOST_ROWS {
        new[row * ROW + 3] = 0x6100_0000;
    }
    let run = |list| {
        let rooms = Rooms {
            list,
            ..Rooms::AMPLE
        };
        reconcile(Exact, &old, &new, &old, rooms)
    };
    assert_eq!(run(3 * 8190).unwrap().counts(), [4096, 4096, 4096, 8190]);
    assert_eq!(no(run(3 * 8190 - 1)), [3, 4, 0]);
}

#[test]
fn what_is_left_in_lent_buffers() {
    let (o, l) = (rows(&[]), rows(&[("p", 1)]));
    let rooms = Rooms {
        archive: 45,
        left: 40,
        right: 41,
        list: 2,
    };
    let mut lent = Buffers::filled(rooms, 9);
    let untouched = lent.clone();
    assert_eq!(no(lent::reconcile(Exact, &o, &l, &o, &mut lent)), [3, 4, 0]);
    assert_eq!(lent, untouched);
    lent.list = vec![9; 5];
    assert_eq!(
        lent::reconcile(Exact, &o, &l, &o, &mut lent).unwrap(),
        [2, 2, 2, 1]
    );
    assert_eq!(lent.archive, [&l[..], &[9; 5]].concat());
    assert_eq!(
        (lent.list, lent.tally),
        (vec![2, 1, NO_ROW, 9, 9], [0, 1, 0])
    );
    let mut text = vec![9; 200];
    let answer = lent::write(Exact, &o, &mut text);
    assert_eq!(numbers(&answer), [0, 0, 21]);
    assert_eq!(&text[..22], b"#mtree\n. type=dir\n..\n\x09");
    let mut words = vec![9; 45];
    assert_eq!(
        numbers(&lent::read(Exact, &text[..21], &mut words)),
        [0, 0, 1]
    );
    assert_eq!(words, [0; 45]);
    words.fill(9);
    assert_eq!(numbers(&lent::read(Exact, b"x", &mut words)), [6, 0, 0]);
    assert_eq!(words, [0; 45]);
}

#[test]
fn sentences() {
    let refusal = Refusal::new(2, 3, 7);
    let said = "a row breaks the row rules (number 2, side 3, place 7)";
    assert_eq!(refusal.to_string(), said);
    let numbers = (1..=14).chain([16]);
    let all: std::collections::BTreeSet<_> =
        numbers.map(|n| Refusal::new(n, 0, 0).sentence()).collect();
    assert_eq!(all.len(), 15);
    assert!(!all.contains("no such number"));
}
