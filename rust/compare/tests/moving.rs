//! Single moves, and the rows that a list entry carries.

use compare::{both, Tried};
use reference::generate;
use reference::{Entries, Node, MOST_ROWS, ROW};

#[test]
fn random_moves() {
    let mut tried = Tried::new("random moves");
    tried.cases(3_000_000, 20_000, |case| {
        let size = generate::size(&mut case.rng).min(100);
        let three = generate::three(&mut case.rng, case.profile, size);
        let [_, target, source] = three.tables();
        let (names, depth) = generate::path(&mut case.rng, case.profile, &three.left, &three.right);
        let ample = target.len() + source.len();
        let moved = both::make_move(case, &target, &source, (&names, depth), ample);
        // The same again in a room about as long as the result, or as the target.
        let rows = moved.as_ref().unwrap_or(&target).len() / ROW;
        let room = generate::room(&mut case.rng, rows, ROW);
        both::make_move(case, &target, &source, (&names, depth), room);
        if let Some(moved) = moved {
            if moved != target {
                case.saw("altered");
            }
            let again = both::make_move(case, &moved, &source, (&names, depth), ample);
            case.same("a second move", &again.unwrap_or_default(), &moved);
        }
    });
    tried.end(
        &[
            ("move", 25_000),
            ("move 0", 12_500),
            ("move 3 side 2", 1_500),
            ("move 4", 150),
            ("move 5", 500),
            ("altered", 2_500),
        ],
        &[],
    );
}

/// Every room from none to a row too long.
#[test]
fn all_rooms() {
    let mut tried = Tried::new("all rooms of a move");
    tried.cases(3_100_000, 400, |case| {
        let size = generate::size(&mut case.rng).min(12);
        let three = generate::three(&mut case.rng, case.profile, size);
        let [_, target, source] = three.tables();
        let (names, depth) = generate::path(&mut case.rng, case.profile, &three.left, &three.right);
        let ample = target.len() + source.len();
        let moved = both::make_move(case, &target, &source, (&names, depth), ample);
        let exact = moved.map_or(target.len(), |moved| moved.len());
        for room in 0..=exact + ROW {
            both::make_move(case, &target, &source, (&names, depth), room);
        }
    });
    tried.end(
        &[("move", 20_000), ("move 0", 2_500), ("move 3", 10_000)],
        &[],
    );
}

/// Deep paths, each slot and the depth bad at times, and slots past the depth.
#[test]
fn slots() {
    let mut tried = Tried::new("slots");
    tried.cases(3_200_000, 20_000, |case| {
        let rng = &mut case.rng;
        let tree = generate::shaped(rng, case.profile, generate::Shape::Deep, 33);
        let source = reference::table(&generate::strewn(rng, case.profile, &tree, 12, 40));
        let target = reference::table(&generate::strewn(rng, case.profile, &tree, 12, 40));
        let paths = tree.paths();
        let (mut names, mut depth) = reference::slots(&rng.pick(&paths));
        match rng.below(6) {
            0 => depth = rng.below(19) as u32,
            1 => names[rng.below(16)] = [0; 8],
            2 => {
                names[rng.below(16)] = {
                    let name = generate::name(rng, case.profile);
                    reference::name_words(name.spelled())
                }
            }
            3 => names[rng.below(16)][rng.below(8)] = rng.word(),
            4 => {
                let bad: [&[u8]; 6] = [b".", b"..", b"a/b", b"\0a", b"a\0b", b"/"];
                names[rng.below(16)] = reference::name_words(rng.pick(&bad));
            }
            _ => {}
        }
        both::make_move(case, &target, &source, (&names, depth), 80 * ROW);
    });
    tried.end(
        &[
            ("move", 10_000),
            ("move 0", 1_500),
            ("move 4", 1_000),
            ("move 5", 3_000),
        ],
        &[],
    );
}

/// Moves of and into large trees, with results of 4,095 to 4,098 rows.
#[test]
fn large_moves() {
    let mut tried = Tried::new("large moves");
    tried.cases(3_300_000, 120, |case| {
        let rng = &mut case.rng;
        let (rows, over) = (3 + rng.below(4000), rng.below(4));
        let shape = rng.pick(&generate::SHAPES);
        let tree = generate::shaped(rng, case.profile, shape, rows);
        let other = generate::shaped(
            rng,
            case.profile,
            generate::Shape::Wide,
            MOST_ROWS - 1 + over - rows,
        );
        let target = reference::table(&tree);
        let added = Node::Folder(Entries::from([(case.profile.name(b"x"), other)]));
        let source = reference::table(&generate::respelled(rng, case.profile, &added));
        let (names, depth) = reference::slots(&case.profile.path(&["x"]));
        let room = (MOST_ROWS + 4) * ROW;
        let moved = both::make_move(case, &target, &source, (&names, depth), room);
        if moved.is_some() != (over < 2) {
            case.fail("4,096 rows are taken and 4,097 refused");
        }
        // A subtree goes, and comes back.
        let paths = tree.paths();
        let path = case.rng.pick(&paths[1..]);
        let (names, depth) = reference::slots(&path);
        let gone = both::make_move(case, &target, &source, (&names, depth), room);
        let gone = gone.unwrap_or_default();
        let back = both::make_move(case, &gone, &target, (&names, depth), room);
        case.same("back", &back.unwrap_or_default(), &target);
    });
    tried.end(&[("move", 180), ("move 0", 125), ("move 3", 15)], &[]);
}

#[test]
fn carried() {
    let mut tried = Tried::new("carried");
    tried.cases(3_400_000, 12_000, |case| {
        let size = generate::size(&mut case.rng).min(200);
        let [_, left, right] = generate::three(&mut case.rng, case.profile, size).tables();
        for _ in 0..5 {
            let entry = generate::entry(&mut case.rng, left.len() / ROW, right.len() / ROW);
            both::carried(case, &left, &right, entry);
        }
    });
    tried.end(
        &[
            ("carried", 30_000),
            ("carried from 0", 10_000),
            ("carried from 2", 3_000),
            ("carried from 3", 3_000),
        ],
        &[],
    );
}
