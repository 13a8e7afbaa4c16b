//! Texts with one fault each, and the number and line that are due for it.

use super::layout::{layout, Layout, Line, What};
use super::misplaced::{bad_place, too_deep, twice};
use super::spots::{fresh_name, inserted, spot};
use super::texts::padded;
use super::words::{extra, file_words, spaced, type_word};
use super::Random;
use crate::listing::MOST_BYTES;
use crate::name::Profile;
use crate::table::{MOST_ROWS, ROW};
use crate::tree::Node;

/// The numbers that reading gives.
pub const FAULTS: [u32; 10] = [3, 6, 7, 8, 9, 10, 11, 12, 13, 14];

/// A faulty text.
#[derive(Clone, Debug, PartialEq, Eq)]
pub struct Faulty {
    /// The text.
    pub text: Vec<u8>,
    /// The room to read it into.
    pub room_words: usize,
    /// The number that is due.
    pub number: u32,
    /// The line that is due.
    pub place: u32,
}

/// A random layout of the tree with a fault of the given number, which is one of [`FAULTS`].
///
/// The tree must be small enough for its layouts to fit a text: 150 rows are.
///
/// # Panics
/// If the number is not one of them.
pub fn faulty(rng: &mut Random, profile: Profile, tree: &Node, number: u32) -> Faulty {
    let mut layout = layout(rng, tree);
    let mut room_words = MOST_ROWS * ROW + rng.below(ROW);
    let place = match number {
        3 => {
            let rows = rng.below(tree.rows());
            room_words = rows * ROW + rng.below(ROW);
            line_of_row(&layout, rows)
        }
        7 => bad_byte(rng, &mut layout),
        8 => {
            let at = spot(rng, &layout, |before| before.open > 0);
            let bytes = bad_name(rng);
            inserted(&mut layout, at, vec![bytes])
        }
        9 => bad_keyword(rng, profile, &mut layout),
        10 => bad_type(rng, profile, &mut layout),
        11 => bad_place(rng, profile, &mut layout),
        13 => twice(rng, profile, &mut layout),
        14 => too_deep(rng, profile, &mut layout),
        6 | 12 => 0,
        _ => panic!("reading never gives {number}"),
    };
    if number == 12 {
        let listing = |line: &Line| !matches!(line.what, What::Root | What::Entry | What::Close);
        layout.lines.retain(listing);
    }
    let mut text = layout.text();
    if number == 6 {
        bad_end(rng, &mut text);
    }
    Faulty {
        text,
        room_words,
        number,
        place,
    }
}

/// The line of the row after so many.
fn line_of_row(layout: &Layout, rows: usize) -> u32 {
    let is_row = |at: &usize| matches!(layout.lines[*at].what, What::Root | What::Entry);
    let at = (0..layout.lines.len()).filter(is_row).nth(rows);
    layout.number(at.expect("the tree has more rows"))
}

fn bad_end(rng: &mut Random, text: &mut Vec<u8>) {
    if rng.one_in(2) {
        let over = 1 + rng.below(40);
        *text = padded(text, text.len().max(MOST_BYTES) + over);
    } else {
        while text.last() == Some(&b'\n') {
            text.pop();
        }
        if text.is_empty() {
            text.push(b'.');
        }
    }
}

/// Puts a refused byte into a line that is no comment.
fn bad_byte(rng: &mut Random, layout: &mut Layout) -> u32 {
    let is_no_comment = |at: &usize| layout.lines[*at].what != What::Comment;
    let lines: Vec<usize> = (0..layout.lines.len()).filter(is_no_comment).collect();
    let at = rng.pick(&lines);
    let byte = match rng.below(4) {
        0 => rng.pick(&[0, 8, 11, 12, 13, 31, 127, 128, 255]),
        1 => 13,
        _ => 128 | rng.byte(),
    };
    let bytes = &mut layout.lines[at].bytes;
    bytes.insert(rng.below(bytes.len()), byte);
    layout.number(at)
}

fn bad_name(rng: &mut Random) -> Vec<u8> {
    let bad: [&[u8]; 20] = [
        b"a/b",
        b"./a",
        b"a/",
        b"a*",
        b"a?",
        b"a[",
        b"a#b",
        b"\\056",
        b"\\056\\056",
        b".\\056",
        b"\\000",
        b"a\\057b",
        b"\\400",
        b"\\777",
        b"\\04",
        b"\\8",
        b"\\\\",
        b"a\\04x",
        b"\\057set",
        b"a\\x",
    ];
    let name = match rng.below(6) {
        0 => vec![b'a'; 33],
        1 => b"\\141".repeat(33),
        2 => vec![b'a'; 40],
        _ => rng.pick(&bad).to_vec(),
    };
    let mut rest = extra(rng);
    // A backslash at the line's end would join the next line.
    if rng.one_in(2) || name.ends_with(b"\\") {
        rest.push(type_word(rng.one_in(2)));
    }
    spaced(rng, 6, &name, &rest)
}

fn bad_keyword(rng: &mut Random, profile: Profile, layout: &mut Layout) -> u32 {
    let slash = rng.one_in(4);
    let at = spot(rng, layout, |before| slash || before.open > 0);
    let mut first = fresh_name(rng, profile, layout.before(at));
    let [kind, size, digest] = file_words(rng);
    let mut rest = extra(rng);
    let word = |bytes: &[u8]| bytes.to_vec();
    if slash {
        let unknown: [&[u8]; 6] = [b"/", b"//", b"/SET", b"/setx", b"/set=", b"/un"];
        first = word(b"/set");
        match rng.below(4) {
            0 => first = word(rng.pick(&unknown)),
            1 => rest.push(size),
            2 => rest.extend([word(b"sha256digest"), word(b"type=bad")]),
            _ => rest.extend([kind, word(b"type=bad")]),
        }
    } else {
        match rng.below(8) {
            0 => {
                first = word(b"..");
                rest.push(word(b"#"));
            }
            1 => rest.extend([word(b"type=dir"), word(b"type")]),
            2 => rest.extend([kind, size]),
            3 => rest.extend([kind, digest]),
            4 => rest.extend([kind, size.clone(), digest, size]),
            5 => rest.extend([kind, digest.clone(), size, digest]),
            6 => rest.extend([kind, bad_size(rng), digest]),
            _ => rest.extend([kind, size, bad_digest(rng, digest)]),
        }
    }
    rng.shuffle(&mut rest);
    let line = spaced(rng, 6, &first, &rest);
    inserted(layout, at, vec![line])
}

fn bad_size(rng: &mut Random) -> Vec<u8> {
    let bad: [&[u8]; 11] = [
        b"",
        b"=",
        b"=-1",
        b"=+1",
        b"=0x1",
        b"=1k",
        b"==1",
        b"=18446744073709551616",
        b"=99999999999999999999",
        b"=000000000000000000001",
        b"=\\061",
    ];
    [b"size".as_slice(), rng.pick(&bad)].concat()
}

/// Spoils a digest word: after "sha256digest=", thirteen bytes, come 64 digits.
fn bad_digest(rng: &mut Random, mut digest: Vec<u8>) -> Vec<u8> {
    match rng.below(4) {
        0 => digest.push(b'0'),
        1 => digest.truncate(digest.len() - 1),
        2 => digest.truncate(13),
        _ => digest[13 + rng.below(64)] = rng.pick(b"gG@`/:="),
    }
    digest
}

const BAD_TYPES: [&[u8]; 8] = [
    b"type",
    b"type=",
    b"type=link",
    b"type=Dir",
    b"type=dir=",
    b"type=files",
    b"type=d\\151r",
    b"type==dir",
];

fn bad_type(rng: &mut Random, profile: Profile, layout: &mut Layout) -> u32 {
    let mut rest = extra(rng);
    let [kind, size, digest] = file_words(rng);
    let way = rng.below(4);
    if way == 0 {
        // The root as a file: its old line comes too late to matter.
        let at = root_at(layout);
        rest.extend([kind, size, digest]);
        let line = spaced(rng, 6, b".", &rest);
        return inserted(layout, at, vec![line]);
    }
    let untyped = layout.end.open > 0 && layout.end.default.is_none() && way == 1;
    let at = match untyped {
        true => spot(rng, layout, |before| {
            before.open > 0 && before.default.is_none()
        }),
        false => spot(rng, layout, |before| before.open > 0),
    };
    if !untyped {
        rest.push(rng.pick(&BAD_TYPES).to_vec());
    }
    let first = match way {
        3 => b"/set".to_vec(),
        _ => fresh_name(rng, profile, layout.before(at)),
    };
    if way != 3 {
        rest.extend([size.clone(), digest, size]);
    }
    rng.shuffle(&mut rest);
    let line = spaced(rng, 6, &first, &rest);
    inserted(layout, at, vec![line])
}

fn root_at(layout: &Layout) -> usize {
    let is_root = |line: &Line| line.what == What::Root;
    layout
        .lines
        .iter()
        .position(is_root)
        .expect("there is a root")
}
