//! Single moves, and the rows to carry.

mod common;

use common::{no, path, rows, wide};
use reference::Profile::Exact;
use reference::{carried, make_move, slots, Part, Slots, MOST_ROWS, NO_ROW, ROW};

#[test]
fn moves_and_their_paths() {
    let target = rows(&[("f", 1), ("p/x", 1)]);
    let source = rows(&[("f/y", 1), ("p/z", 2), ("q/r/s", 3)]);
    let go = |names: &Slots, depth: u32, room: usize| {
        make_move(Exact, &target, &source, names, depth, room)
    };
    let at = |names: &str| {
        let (names, depth) = slots(&path(names));
        go(&names, depth, 1000)
    };
    assert_eq!(at("f").unwrap(), rows(&[("f/y", 1), ("p/x", 1)]));
    assert_eq!(at("p").unwrap(), rows(&[("f", 1), ("p/z", 2)]));
    assert_eq!(at("p/x").unwrap(), rows(&[("f", 1), ("p", 0)]));
    assert_eq!(
        at("q").unwrap(),
        rows(&[("f", 1), ("p/x", 1), ("q/r/s", 3)])
    );
    assert_eq!(at("none").unwrap(), target);
    for absent in ["f/y", "q/r", "q/none", "none/none", "p/x/y"] {
        assert_eq!(no(at(absent)), [4, 0, 0], "{absent}");
    }
    let (names, depth) = slots(&path("q"));
    assert_eq!(no(go(&names, depth, 7 * ROW - 1)), [3, 2, 0]);
    assert_eq!(go(&names, depth, 7 * ROW).unwrap().len(), 7 * ROW);
    for bad in ["", ".", "..", "a/b", "\0a", "ab\0c"] {
        let (names, depth) = slots(&Exact.path(&["p", bad]));
        assert_eq!(no(go(&names, depth, 0)), [5, 0, 0], "{bad:?}");
    }
    for depth in [0, 17, u32::MAX] {
        assert_eq!(no(go(&names, depth, 1000)), [5, 0, 0]);
    }
    let mut past = names;
    past[15][7] = 1;
    assert_eq!(no(go(&past, 1, 1000)), [5, 0, 0]);
    // 5 comes before 4.
    let (mut names, depth) = slots(&path("none/x"));
    assert_eq!(no(go(&names, depth, 0)), [4, 0, 0]);
    names[2][0] = 1;
    assert_eq!(no(go(&names, depth, 0)), [5, 0, 0]);
}

#[test]
fn moves_at_the_limits() {
    let full = wide(MOST_ROWS);
    let source = rows(&[("p", 1)]);
    let (names, depth) = slots(&path("p"));
    let short = &full[..full.len() - ROW];
    let room = 2 * full.len();
    assert_eq!(
        make_move(Exact, short, &source, &names, depth, room)
            .unwrap()
            .len(),
        full.len()
    );
    assert_eq!(
        no(make_move(Exact, &full, &source, &names, depth, room)),
        [3, 2, 0]
    );
    let deep = ["a"; 16].join("/");
    let (target, source) = (rows(&[(&deep[..29], 0)]), rows(&[(&deep, 1)]));
    let (names, depth) = slots(&path(&deep));
    assert_eq!(depth, 16);
    assert_eq!(
        make_move(Exact, &target, &source, &names, depth, 340).unwrap(),
        source
    );
}

#[test]
fn rows_to_carry() {
    let left = rows(&[("p/x", 1), ("p/y/z", 1), ("q", 1)]);
    let right = rows(&[("q", 1)]);
    let part = |side, row: usize, rows: usize| {
        Some(Part {
            side,
            start: row * ROW,
            words: rows * ROW,
        })
    };
    assert_eq!(carried(Exact, &left, &right, 2, 1, NO_ROW), part(2, 1, 4));
    assert_eq!(carried(Exact, &left, &right, 2, 3, 9), part(2, 3, 2));
    assert_eq!(carried(Exact, &left, &right, 2, 0, 0), part(2, 0, 6));
    assert_eq!(carried(Exact, &left, &right, 2, 5, 0), part(2, 5, 1));
    assert_eq!(carried(Exact, &left, &right, 2, 6, 0), None);
    assert_eq!(carried(Exact, &left, &right, 1, 1, 1), part(3, 1, 1));
    assert_eq!(carried(Exact, &left, &right, 1, 1, NO_ROW), None);
    for kind in [0, 3, 4, u32::MAX] {
        assert_eq!(carried(Exact, &left, &right, kind, 1, 1), None);
    }
    // A bad table gives no rows, though it be the other one.
    assert_eq!(carried(Exact, &left, &right[1..], 2, 1, 1), None);
    assert_eq!(carried(Exact, &left[1..], &right, 1, 1, 1), None);
}
