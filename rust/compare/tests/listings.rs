//! Reading texts of every layout and with every fault, and writing tables.

use compare::{both, Case, Tried};
use reference::generate::{self, FAULTS};
use reference::{Node, MOST_BYTES, MOST_ROWS, ROW};

fn small(case: &mut Case, most: usize) -> Node {
    let size = generate::size(&mut case.rng).min(most);
    generate::tree(&mut case.rng, case.profile, size)
}

/// A room near the one for so many rows, or one for more.
fn room(case: &mut Case, rows: usize) -> usize {
    generate::room(&mut case.rng, rows, ROW)
}

#[test]
fn layouts() {
    let mut tried = Tried::new("layouts");
    tried.cases(4_000_000, 15_000, |case| {
        let tree = small(case, 150);
        let text = generate::listing(&mut case.rng, &tree);
        let rows = tree.rows();
        let ample = rows * ROW + case.rng.below(3 * ROW);
        let read = both::read(case, &text, ample);
        case.same(
            "the tree",
            &read.unwrap_or_default(),
            &reference::table(&tree),
        );
        let room = room(case, rows);
        both::read(case, &text, room);
    });
    tried.end(
        &[("read", 15_000), ("read 0", 10_000), ("read 3", 1_500)],
        &[],
    );
}

#[test]
fn faults() {
    let mut tried = Tried::new("faults");
    for number in FAULTS {
        tried.cases(4_100_000, 2_000, |case| {
            let tree = small(case, 40);
            let faulty = generate::faulty(&mut case.rng, case.profile, &tree, number);
            let room = faulty.room_words.min(300 * ROW + faulty.room_words % ROW);
            if both::read(case, &faulty.text, room).is_some() {
                case.fail(&format!("a text with fault {number} is taken"));
            }
        });
    }
    let numbers = FAULTS.map(|number| format!("read {number}"));
    let least: Vec<_> = numbers
        .iter()
        .map(|number| (number.as_str(), 1_000))
        .collect();
    tried.end(&least, &[]);
}

#[test]
fn one_byte_hurt() {
    let mut tried = Tried::new("one byte hurt");
    tried.cases(4_200_000, 25_000, |case| {
        let tree = small(case, 12);
        let mut text = generate::listing(&mut case.rng, &tree);
        for _ in 0..=case.rng.below(2) {
            text = generate::hurt(&mut case.rng, &text);
        }
        let room = (tree.rows() + 2) * ROW;
        both::read(case, &text, room);
    });
    tried.end(
        &[
            ("read", 12_500),
            ("read 0", 1_500),
            ("read 6", 50),
            ("read 7", 500),
            ("read 8", 500),
            ("read 9", 500),
            ("read 10", 150),
            ("read 11", 150),
            ("read 12", 1),
            ("read 13", 1),
        ],
        &[],
    );
}

#[test]
fn line_soup() {
    let mut tried = Tried::new("line soup");
    tried.cases(4_300_000, 60_000, |case| {
        let text = generate::soup(&mut case.rng);
        let room = case.rng.below(14 * ROW);
        both::read(case, &text, room);
    });
    tried.end(
        &[
            ("read", 30_000),
            ("read 0", 1_500),
            ("read 3", 500),
            ("read 6", 8),
            ("read 7", 400),
            ("read 8", 500),
            ("read 9", 500),
            ("read 10", 500),
            ("read 11", 500),
            ("read 12", 500),
            ("read 13", 100),
        ],
        &[],
    );
}

/// Texts cut off anywhere, and any bytes at all.
#[test]
fn cut_texts_and_any_bytes() {
    let mut tried = Tried::new("cut texts and any bytes");
    tried.cases(4_400_000, 10_000, |case| {
        let tree = small(case, 20);
        let mut text = generate::listing(&mut case.rng, &tree);
        text.truncate(case.rng.below(text.len() + 1));
        if !case.rng.one_in(4) {
            text.push(b'\n');
        }
        both::read(case, &text, tree.rows() * ROW);
        let length = case.rng.below(60);
        let mut bytes: Vec<u8> = (0..length).map(|_| case.rng.byte()).collect();
        if case.rng.one_in(2) {
            bytes.iter_mut().for_each(|byte| *byte = 32 + *byte % 95);
        }
        bytes.push(b'\n');
        both::read(case, &bytes, 2 * ROW);
    });
    tried.end(&[("read", 10_000), ("read 0", 500), ("read 6", 500)], &[]);
}

/// Texts of 65,535 to 65,537 bytes and of 4,095 to 4,098 rows, in rooms around 4,096 rows.
#[test]
fn limits_of_a_text() {
    let mut tried = Tried::new("limits of a text");
    tried.cases(4_500_000, 60, |case| {
        let tree = small(case, 60);
        let text = generate::listing(&mut case.rng, &tree);
        for bytes in MOST_BYTES - 1..=MOST_BYTES + 1 {
            let text = generate::padded(&text, bytes);
            both::read(case, &text, (tree.rows() + 1) * ROW);
        }
    });
    tried.cases(4_600_000, 8, |case| {
        let crowd = generate::crowd(MOST_ROWS - 1 + case.rng.below(4));
        for room in [MOST_ROWS * ROW - 1, MOST_ROWS * ROW, (MOST_ROWS + 3) * ROW] {
            both::read(case, &crowd, room);
        }
    });
    tried.end(&[("read 0", 50), ("read 3", 4), ("read 6", 30)], &[]);
}

/// Tables whose texts have 65,535 to 65,537 bytes: a lone root takes 21, and a folder beside it 13 and its name.
#[test]
fn limits_of_a_written_text() {
    let mut tried = Tried::new("limits of a written text");
    tried.cases(4_650_000, 4, |case| {
        for last in 30..=32 {
            let mut tree = Node::default();
            for (number, length) in [vec![32; 1454], vec![28, last]]
                .concat()
                .into_iter()
                .enumerate()
            {
                let name = format!("{number:0length$}");
                tree.put(&case.profile.path(&[name]), Some(Node::default()));
            }
            let table = reference::table(&tree);
            for room in [MOST_BYTES - 1, MOST_BYTES, MOST_BYTES + 1, 2 * MOST_BYTES] {
                both::write(case, &table, room);
            }
        }
    });
    tried.end(&[("write 0", 10), ("write 3 side 1", 7)], &[]);
}

/// Large trees in order, in reverse and in any order.
#[test]
fn large_texts() {
    let mut tried = Tried::new("large texts");
    tried.cases(4_700_000, 60, |case| {
        let rng = &mut case.rng;
        let shape = rng.pick(&generate::SHAPES);
        let rows = 100 + rng.below(450);
        let tree = generate::shaped(rng, case.profile, shape, rows);
        let text = generate::listing(rng, &tree);
        both::read(case, &text, (rows + 1) * ROW);
        let table = reference::table(&tree);
        if let Some(text) = both::write(case, &table, MOST_BYTES) {
            let read = both::read(case, &text, rows * ROW);
            case.same("read back", &read.unwrap_or_default(), &table);
        }
    });
    tried.end(&[("read", 50), ("read 0", 30), ("write 0", 20)], &[]);
}

#[test]
fn written_and_read_back() {
    let mut tried = Tried::new("written and read back");
    tried.cases(4_800_000, 8_000, |case| {
        let tree = small(case, 150);
        let table = reference::table(&tree);
        let text = reference::write(case.profile, &table, usize::MAX);
        let text = text.expect("a small tree has a short text");
        for room in [
            text.len(),
            text.len() - 1,
            text.len() + 1 + case.rng.below(100),
            case.rng.below(text.len()),
        ] {
            if let Some(text) = both::write(case, &table, room) {
                let read = both::read(case, &text, table.len());
                case.same("read back", &read.unwrap_or_default(), &table);
            }
        }
    });
    tried.end(
        &[
            ("write", 16_000),
            ("write 0", 8_000),
            ("write 3 side 1", 8_000),
            ("read 0", 8_000),
        ],
        &[],
    );
}
