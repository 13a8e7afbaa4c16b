//! Document 01's cases by name, printed as the document says.

use std::fs;
use syncplan_tests::{due_in_both, texts, Folder};

const ARCHIVE: &str = ". type=dir\nL type=dir\nd1 @1\nd2 @2\n..\nR type=dir\n";
const LEFT: &str = ". type=dir\nL type=dir\nd1 @3\nd2 @2\nd3 @4\n..\nR type=dir\n";
const RIGHT: &str = ". type=dir\nL type=dir\nd1 @5\nd3 @4\n..\nR type=dir\nd1 @6\n";

#[test]
fn c12() {
    due_in_both(
        &texts([ARCHIVE, LEFT, RIGHT]),
        "! ./L/d1\n< ./L/d2\n< ./R/d1\n= 2 0 1\n",
    );
}

#[test]
fn c13() {
    let left = ". type=dir\nL type=dir\nd1 @3\nd3 @4\n..\nR type=dir\n";
    due_in_both(
        &texts([ARCHIVE, left, RIGHT]),
        "! ./L/d1\n< ./R/d1\n= 1 0 1\n",
    );
}

/// Archive, left, right and what is printed for C1 to C11, each tree beside its root.
const CASES: [[&str; 4]; 11] = [
    ["", "", "", "= 0 0 0\n"],
    ["", "p @1\n", "", "> ./p\n= 0 1 0\n"],
    ["", "p @1\n", "p @1\n", "= 0 0 0\n"],
    ["", "p @1\n", "p @2\n", "! ./p\n= 0 0 1\n"],
    ["p @1\n", "", "p @1\n", "> ./p\n= 0 1 0\n"],
    ["p @1\n", "", "p @2\n", "! ./p\n= 0 0 1\n"],
    ["p @1\n", "", "", "= 0 0 0\n"],
    [
        "p type=dir\nx @1\n",
        "",
        "p type=dir\nx @2\n",
        "! ./p\n= 0 0 1\n",
    ],
    [
        "p type=dir\nx @1\n",
        "p type=dir\n",
        "p @2\n",
        "! ./p\n= 0 0 1\n",
    ],
    ["p @1\n", "p type=dir\n", "p @1\n", "> ./p\n= 0 1 0\n"],
    [
        "p @1\n",
        "p type=dir\nx @1\n",
        "p type=dir\ny @2\n",
        "> ./p/x\n< ./p/y\n= 1 1 0\n",
    ],
];

#[test]
fn c1_to_c11() {
    for [archive, left, right, printed] in CASES {
        let files = [archive, left, right].map(|tree| format!(". type=dir\n{tree}"));
        due_in_both(&texts([&files[0], &files[1], &files[2]]), printed);
    }
}

/// The cases with the sides exchanged: what the left got the right gets.
#[test]
fn c1_to_c11_exchanged() {
    for [archive, left, right, printed] in CASES {
        let files = [archive, right, left].map(|tree| format!(". type=dir\n{tree}"));
        let lines = printed.lines().map(|line| match line.split_at(1) {
            ("<", path) => format!(">{path}\n"),
            (">", path) => format!("<{path}\n"),
            ("=", counts) => {
                let counts: Vec<&str> = counts.trim().split(' ').collect();
                format!("= {} {} {}\n", counts[1], counts[0], counts[2])
            }
            _ => format!("{line}\n"),
        });
        let exchanged: String = lines.collect();
        due_in_both(&texts([&files[0], &files[1], &files[2]]), &exchanged);
    }
}

/// The program reads: the folder holds afterwards what it held before.
#[test]
fn the_folder_stays_as_it_was() {
    let folder = Folder::new();
    let files = texts([ARCHIVE, LEFT, RIGHT]);
    folder.put_all(&files);
    for _ in 0..3 {
        folder.due_in_both("! ./L/d1\n< ./L/d2\n< ./R/d1\n= 2 0 1\n");
        for (side, text) in files.iter().enumerate() {
            assert_eq!(fs::read(folder.file(side)).ok(), *text);
        }
        assert_eq!(fs::read_dir(folder.path()).unwrap().count(), 3);
    }
}
