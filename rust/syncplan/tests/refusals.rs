//! Each number that a file can get, on each of the three files; what comes later never matters.

use std::fs;
use syncplan_tests::{text, Folder, SIDES};

/// A text, and the number and the place that are due for it.
const REFUSED: [(&str, u32, u32); 46] = [
    (". type=dir", 6, 0),
    (".", 6, 0),
    ("\u{80}\n. type=dir\n ", 6, 0),
    (". type=dir\r\n", 7, 1),
    (". type=dir\n# \u{80} \r\na \u{80}\n", 7, 3),
    (". type=dir\n\\\n\\\n\x7f\n", 7, 2),
    (". type=dir\n..\n\0\n", 7, 3),
    (". type=dir\n\na/b type=dir\n", 8, 3),
    (". type=dir\n./a type=dir\n", 8, 2),
    (". type=dir\na* type=dir\n", 8, 2),
    (". type=dir\n\\057 type=dir\n", 8, 2),
    (". type=dir\n\\000 type=dir\n", 8, 2),
    (". type=dir\n\\056\\056 type=dir\n", 8, 2),
    (". type=dir\n\\400 type=dir\n", 8, 2),
    (". type=dir\na\\ type=dir\n", 8, 2),
    (". type=dir\nabcdefghijabcdefghijabcdefghij123 @1\n", 8, 2),
    (". type=dir\n# c\na type=file size=1\n", 9, 3),
    (". type=dir\na @1 size=1\n", 9, 2),
    (". type=dir\na type=dir type=dir\n", 9, 2),
    (
        ". type=dir\na type=file size=18446744073709551616\n",
        9,
        2,
    ),
    (". type=dir\n.. x\n", 9, 2),
    ("/sett\n. type=dir\n", 9, 1),
    ("/set size=1\n. type=dir\n", 9, 1),
    ("/set sha256digest=1\n. type=dir\n", 9, 1),
    ("/set type=dir type=dir\n. type=dir\n", 9, 1),
    (".\n", 10, 1),
    (". type=link\n", 10, 1),
    (". @1\n", 10, 1),
    (". type=dir\na \\\n\\\ntype=Dir\n", 10, 2),
    (". type=dir\n/set type=x\n", 10, 2),
    (". type=dir\n..\n/set type=x\n", 10, 3),
    ("a type=dir\n. type=dir\n", 11, 1),
    ("\n\n..\n", 11, 3),
    (". type=dir\n. type=dir\n", 11, 2),
    (". type=dir\n..\na type=dir\n", 11, 3),
    (". type=dir\n..\n..\n", 11, 3),
    (". type=dir\na type=dir\n. type=dir\n", 11, 3),
    ("", 12, 0),
    ("\n", 12, 0),
    ("#mtree\n/set type=dir\n \t\n\\\n", 12, 0),
    (". type=dir\na @1\na @1\n", 13, 3),
    (". type=dir\na @1\n\\141 type=dir\n", 13, 3),
    (". type=dir\na type=dir\nb @1\n..\na @1\n", 13, 5),
    (
        "/set type=dir\n.\n1\n2\n3\n4\n5\n6\n7\n8\n9\n10\n11\n12\n13\n14\n15\n16\n17\n",
        14,
        19,
    ),
    (
        "/set type=dir\n.\n1\n2\n3\n4\n5\n6\n7\n8\n9\n10\n11\n12\n13\n14\n15\n16\n..\n..\nx\n\\\ny\nz @1\n",
        14,
        24,
    ),
    (
        "#\n/set type=dir\n.\n1\n2\n3\n4\n5\n6\n7\n8\n9\n10\n11\n12\n13\n14\n15\n16\nz @1\n",
        14,
        20,
    ),
];

const GOOD: &str = "#mtree\n. type=dir\na @1\n..\n";

/// Puts something into a place that makes the files from there on worth nothing.
fn spoil(folder: &Folder, side: usize, way: usize) {
    match way {
        0 => folder.put(side, Some(&text(GOOD))),
        1 => folder.put(side, None),
        2 => folder.put(side, Some(b"no listing")),
        3 => folder.put(side, Some(b"\n\n\xff\n")),
        _ => fs::create_dir(folder.file(side)).unwrap(),
    }
}

/// The file on each side, with good ones before it and anything after it.
fn refused_everywhere(bytes: &[u8], number: u32, place: u32) {
    for (side, name) in SIDES.iter().enumerate() {
        for way in 0..5 {
            let folder = Folder::new();
            (0..side).for_each(|before| folder.put(before, Some(&text(GOOD))));
            folder.put(side, Some(bytes));
            (side + 1..3).for_each(|after| spoil(&folder, after, way));
            folder.due_in_both(&format!("refused {name} {number} {place}\n"));
            if side == 2 {
                break;
            }
        }
    }
}

#[test]
fn each_number_on_each_file() {
    for (short, number, place) in REFUSED {
        refused_everywhere(&text(short), number, place);
    }
}

#[test]
fn too_many_rows_on_each_file() {
    let mut short = String::from("/set type=dir\n.\n");
    (1..=128).for_each(|row| short.push_str(&format!("{row}\n..\n")));
    refused_everywhere(short.as_bytes(), 3, 257);
    // The rows after it, and faults among them, are never come to.
    short.push_str("129\n..\n\u{80}\n");
    refused_everywhere(short.as_bytes(), 3, 257);
}

/// The first faulty line decides, and on a line the order 7, 11, 8, 9, 10, 14, 13.
#[test]
fn first_fault_first() {
    for (short, number, place) in [
        (". type=dir\na type=x\nb/ @1\n\x01\n", 10, 2),
        (". type=dir\nb/ type=x size=x\x01\n", 7, 2),
        (". type=dir\n..\nb/ type=x size=x\n", 11, 3),
        (". type=dir\nb/ type=file size=x\n", 8, 2),
        (". type=dir\nb type=x type=x\n", 9, 2),
        (". type=dir\na @1\na type=file size=x\n", 9, 3),
        (". type=dir\na @1\na type=x\n", 10, 3),
        ("# c\n\n/set type=file\n", 12, 0),
    ] {
        refused_everywhere(&text(short), number, place);
    }
}

/// All three are refused: the first of them is named.
#[test]
fn the_first_refused_file_is_named() {
    for (first, name) in SIDES.iter().enumerate() {
        let folder = Folder::new();
        for side in 0..3 {
            let short = if side < first { GOOD } else { ". type=no\n" };
            folder.put(side, Some(&text(short)));
        }
        folder.due_in_both(&format!("refused {name} 10 1\n"));
    }
}
