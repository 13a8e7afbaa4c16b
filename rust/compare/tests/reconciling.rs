//! Reconciling: related trees, all rooms around the exact ones, large trees and the limits, and rows that differ in one word.

use compare::{both, Case, Tried};
use reference::generate::{self, Three};
use reference::{
    Entries, Node, Outcome, Profile, Rooms, CLASH, MOST_ROWS, NO_ROW, RIGHT_GETS, ROW,
};

const UNITS: [usize; 4] = [ROW, ROW, ROW, 3];

fn parts(tables: &[Vec<u32>; 3]) -> [&[u32]; 3] {
    tables.each_ref().map(Vec::as_slice)
}

/// What the reference makes of three tables where there is room for everything.
fn outcome(profile: Profile, tables: &[Vec<u32>; 3]) -> Outcome {
    let [archive, left, right] = parts(tables);
    let answer = reference::reconcile(profile, archive, left, right, Rooms::AMPLE);
    answer.expect("small trees are accepted")
}

fn rooms([archive, left, right, list]: [usize; 4]) -> Rooms {
    Rooms {
        archive,
        left,
        right,
        list,
    }
}

#[test]
fn related_trees() {
    let mut tried = Tried::new("related trees");
    tried.cases(1_000_000, 25_000, |case| {
        let size = generate::size(&mut case.rng).min(120);
        let tables = generate::three(&mut case.rng, case.profile, size).tables();
        let due = outcome(case.profile, &tables);
        for (kind, count) in due.tally.iter().enumerate() {
            if *count > 0 {
                case.saw(["left gets", "right gets", "clash"][kind]);
            }
        }
        let rooms = generate::rooms(&mut case.rng, &due);
        both::reconcile(case, parts(&tables), rooms);
    });
    tried.end(
        &[
            ("reconcile", 12_500),
            ("reconcile 0", 7_500),
            ("reconcile 3 side 1", 250),
            ("reconcile 3 side 2", 250),
            ("reconcile 3 side 3", 250),
            ("reconcile 3 side 4", 150),
            ("left gets", 2_500),
            ("right gets", 2_500),
            ("clash", 2_500),
        ],
        &[],
    );
}

/// Each result's room from none to more than a unit too long, the others exact or short as well.
#[test]
fn all_rooms() {
    let mut tried = Tried::new("all rooms");
    tried.cases(1_100_000, 250, |case| {
        let size = generate::size(&mut case.rng).min(40);
        let tables = generate::three(&mut case.rng, case.profile, size).tables();
        let counts = outcome(case.profile, &tables).counts();
        let exact = [0, 1, 2, 3].map(|side| counts[side] as usize * UNITS[side]);
        for side in 0..4 {
            let unit = UNITS[side];
            let short = exact[side].saturating_sub(unit + 1);
            for room in [0].into_iter().chain(short..=exact[side] + unit + 1) {
                let mut words = exact;
                words[side] = room;
                both::reconcile(case, parts(&tables), rooms(words));
            }
            for other in 0..4 {
                let mut words = exact;
                words[side] = words[side].saturating_sub(1);
                words[other] = words[other].saturating_sub(1 + case.rng.below(UNITS[other]));
                both::reconcile(case, parts(&tables), rooms(words));
            }
        }
    });
    tried.end(
        &[
            ("reconcile", 15_000),
            ("reconcile 0", 5_000),
            ("reconcile 3 side 1", 1_500),
            ("reconcile 3 side 2", 1_500),
            ("reconcile 3 side 3", 1_500),
            ("reconcile 3 side 4", 250),
        ],
        &[],
    );
}

/// Rooms for everything that three tables can come to.
fn enough(tables: &[Vec<u32>; 3]) -> Rooms {
    let words: usize = tables.iter().map(Vec::len).sum();
    rooms([words; 4])
}

#[test]
fn large_trees() {
    let mut tried = Tried::new("large trees");
    tried.cases(1_200_000, 200, |case| {
        let rng = &mut case.rng;
        let shape = rng.pick(&generate::SHAPES);
        let rows = rng.pick(&[256, 1000, 2000, 4095, 4096]);
        let three = if rng.one_in(2) {
            let change = rng.pick(&generate::CHANGES);
            generate::changed(rng, case.profile, shape, rows, change)
        } else {
            let archive = generate::shaped(rng, case.profile, shape, rows);
            let odds = rng.pick(&[8, 40, 400]);
            let left = generate::strewn(rng, case.profile, &archive, odds, MOST_ROWS);
            let right = generate::strewn(rng, case.profile, &archive, odds, MOST_ROWS);
            Three {
                archive,
                left,
                right,
            }
        };
        let tables = three.tables();
        if tables.iter().all(|table| table.len() == MOST_ROWS * ROW) {
            case.saw("three times 4,096 rows");
        }
        both::reconcile(case, parts(&tables), enough(&tables));
    });
    tried.end(
        &[
            ("reconcile", 100),
            ("reconcile 0", 75),
            ("three times 4,096 rows", 5),
        ],
        &[],
    );
}

/// A folder of so many rows, itself one of them.
fn pile(case: &mut Case, rows: usize) -> Node {
    generate::shaped(&mut case.rng, case.profile, generate::Shape::Wide, rows)
}

/// A tree of these entries, in any letter case if case is ignored.
fn tree<const N: usize>(case: &mut Case, entries: [(&str, Node); N]) -> Node {
    let named = entries.map(|(name, node)| (case.profile.name(name.as_bytes()), node));
    let tree = Node::Folder(Entries::from(named));
    generate::respelled(&mut case.rng, case.profile, &tree)
}

/// Three trees that come to so many rows and so many more in one place of one result.
fn at_the_limit(case: &mut Case, one: usize, other: usize) -> Three {
    let (one, other) = (pile(case, one), pile(case, other));
    let (f, g) = (generate::file(&mut case.rng), pile(case, 1));
    let side = case.rng.below(3);
    match side {
        0 => Three {
            archive: tree(case, [("p", one)]),
            left: tree(case, [("p", f), ("q", other.clone())]),
            right: tree(case, [("p", g), ("q", other)]),
        },
        1 => Three {
            archive: tree(case, []),
            left: tree(case, [("p", one)]),
            right: tree(case, [("p", f), ("q", other)]),
        },
        _ => Three {
            archive: tree(case, []),
            left: tree(case, [("p", f), ("q", other)]),
            right: tree(case, [("p", one)]),
        },
    }
}

/// Results of about 4,096 rows, of the archive alone, of left alone and of right alone.
#[test]
fn results_at_the_limit() {
    let mut tried = Tried::new("results at the limit");
    tried.cases(1_300_000, 48, |case| {
        let one = 3 + case.rng.below(4000);
        let over = case.rng.below(4);
        // With the root these are 4,095 to 4,098 rows.
        let other = MOST_ROWS - 2 + over - one;
        let three = at_the_limit(case, one, other);
        let tables = three.tables();
        let run = both::reconcile(case, parts(&tables), enough(&tables));
        if run.is_some() != (over < 2) {
            case.fail("4,096 rows are taken and 4,097 refused");
        }
    });
    tried.end(
        &[
            ("reconcile 0", 6),
            ("reconcile 3 side 1", 2),
            ("reconcile 3 side 2", 2),
            ("reconcile 3 side 3", 2),
        ],
        &[],
    );
}

/// The words by which a row may differ from another with its name and kind: the depth, and those of size and digest.
const WORDS: [usize; 11] = [0, 10, 11, 12, 13, 14, 15, 16, 17, 18, 19];

/// Two folders that differ in one row, and there in this word alone.
fn apart(case: &mut Case, word: usize) -> [Node; 2] {
    let files = 1 + case.rng.below(40);
    let folder = pile(case, 1 + files);
    if word == 0 {
        let below = tree(case, [("z", Node::default())]);
        let mut pair = [folder.clone(), folder];
        pair[0].put(&[case.profile.name(b"y")], Some(below));
        pair[1].put(&[case.profile.name(b"y")], Some(Node::default()));
        pair[1].put(&[case.profile.name(b"z")], Some(Node::default()));
        return pair;
    }
    let mut table = reference::table(&folder);
    table[ROW * (1 + case.rng.below(files)) + word] ^= 1 << case.rng.below(32);
    let other = reference::check(case.profile, &table).expect("another size or digest");
    [folder, other]
}

/// A folder that the left has no more goes on the right too, and clashes where one word of one row differs from the archive's.
#[test]
fn every_word_counts() {
    let mut tried = Tried::new("every word counts");
    tried.cases(1_400_000, 880, |case| {
        let word = case.rng.pick(&WORDS);
        let [one, other] = apart(case, word);
        for (archive, right, due) in [(&one, &one, RIGHT_GETS), (&one, &other, CLASH)] {
            let three = Three {
                archive: tree(case, [("p", archive.clone())]),
                left: Node::default(),
                right: tree(case, [("p", right.clone())]),
            };
            let tables = three.tables();
            let run = both::reconcile(case, parts(&tables), enough(&tables));
            if run.map(|run| run.list) != Some(vec![[due, NO_ROW, 1]]) {
                case.fail(&format!("kind {due} is due for word {word}"));
            }
        }
        case.saw(&format!("word {word}"));
    });
    let seen = WORDS.map(|word| format!("word {word}"));
    tried.end(&seen.each_ref().map(|word| (word.as_str(), 20)), &[]);
}
