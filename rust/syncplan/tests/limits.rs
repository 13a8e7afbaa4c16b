//! Files that are not there or no files, and files at the limits of bytes, rows and depth.

use reference::generate::{crowd, padded};
use std::fs;
use std::os::unix::fs::symlink;
use syncplan_tests::{due_in_both, text, Files, Folder, MOST_BYTES, MOST_ROWS, SIDES};

const GOOD: &str = ". type=dir\na @1\n";

/// Good files, with something else in one place.
fn with(side: usize, given: Option<&[u8]>) -> Files {
    let mut files: Files = [(); 3].map(|()| Some(text(GOOD)));
    files[side] = given.map(<[u8]>::to_vec);
    files
}

/// What is printed with the given in each of the three places, of which the name is put for `@`.
fn due_on_each(given: Option<&[u8]>, printed: &str) {
    for (side, name) in SIDES.iter().enumerate() {
        due_in_both(&with(side, given), &printed.replace('@', name));
    }
}

#[test]
fn no_file() {
    due_in_both(&[None, None, None], "refused archive 6 0\n");
    due_on_each(None, "refused @ 6 0\n");
}

#[test]
fn an_empty_file() {
    due_on_each(Some(b""), "refused @ 12 0\n");
}

#[test]
fn a_folder_for_a_file() {
    for (side, name) in SIDES.iter().enumerate() {
        let folder = Folder::new();
        folder.put_all(&with(side, None));
        fs::create_dir(folder.file(side)).unwrap();
        folder.due_in_both(&format!("refused {name} 6 0\n"));
        fs::write(folder.file(side).join("archive.mtree"), GOOD).unwrap();
        folder.due_in_both(&format!("refused {name} 6 0\n"));
    }
}

#[test]
fn links_to_files() {
    for (side, name) in SIDES.iter().enumerate() {
        let folder = Folder::new();
        folder.put_all(&with(side, None));
        symlink("elsewhere", folder.file(side)).unwrap();
        folder.due_in_both(&format!("refused {name} 6 0\n"));
        fs::write(folder.path().join("elsewhere"), text(GOOD)).unwrap();
        folder.due_in_both("= 0 0 0\n");
    }
}

/// Names that are only nearly those of the files are no files.
#[test]
fn other_names() {
    let folder = Folder::new();
    for name in ["archive", "Archive.mtree", "archive.mtree~", ".mtree"] {
        fs::write(folder.path().join(name), text(GOOD)).unwrap();
    }
    folder.put(1, Some(&text(GOOD)));
    folder.put(2, Some(&text(GOOD)));
    folder.due_in_both("refused archive 6 0\n");
}

/// The text with many comments at its end.
fn padded_by_lines(text: &[u8], length: usize) -> Vec<u8> {
    let mut text = text.to_vec();
    while text.len() + 200 < length {
        text = padded(&text, text.len() + 97);
    }
    padded(&text, length)
}

#[test]
fn most_bytes() {
    let alone = text(". type=dir\nb @1\n");
    let printed = ["< ./b\n= 1 0 0\n", "= 0 0 0\n"];
    for pad in [padded, padded_by_lines] {
        for length in [MOST_BYTES - 1, MOST_BYTES] {
            let full = pad(&alone, length);
            assert_eq!(full.len(), length);
            let lone = text(". type=dir\n");
            let files = [lone.clone(), lone, full.clone()].map(Some);
            due_in_both(&files, printed[0]);
            due_in_both(&[(); 3].map(|()| Some(full.clone())), printed[1]);
        }
        for length in [MOST_BYTES + 1, MOST_BYTES + 2, 65_536, 65_537, 1 << 20] {
            due_on_each(Some(&pad(&alone, length)), "refused @ 6 0\n");
        }
    }
}

/// Over the limit it is 6 and 0 whatever is in the file, and under it for a last byte that is not LF.
#[test]
fn too_long_whatever_is_in_it() {
    for byte in [b'\n', b'x', b' ', 0, 0xff] {
        due_on_each(Some(&vec![byte; MOST_BYTES + 1]), "refused @ 6 0\n");
    }
    let cut = &padded(&text(GOOD), MOST_BYTES + 1)[..MOST_BYTES];
    due_on_each(Some(cut), "refused @ 6 0\n");
    due_on_each(Some(&[b'\n'; MOST_BYTES]), "refused @ 12 0\n");
    let mut last = vec![b'\n'; MOST_BYTES];
    last[MOST_BYTES - 2] = b'.';
    due_on_each(Some(&last), &format!("refused @ 10 {}\n", MOST_BYTES - 1));
}

#[test]
fn most_rows_of_folders() {
    due_in_both(&[(); 3].map(|()| Some(crowd(MOST_ROWS))), "= 0 0 0\n");
    due_on_each(Some(&crowd(MOST_ROWS + 1)), "refused @ 3 257\n");
    due_on_each(Some(&crowd(1000)), "refused @ 3 257\n");
}

/// A root and so many files, a line each; then more lines.
fn files(count: usize, more: &str) -> Vec<u8> {
    let names: String = (0..count).map(|row| format!("{row:03} @1\n")).collect();
    text(&format!(". type=dir\n{names}{more}"))
}

#[test]
fn most_rows_of_files() {
    let full = files(MOST_ROWS - 1, "..\n\n# c\n");
    assert!(full.len() <= MOST_BYTES);
    let lone = text(". type=dir\n");
    let listed: String = (0..127).map(|row| format!("> ./{row:03}\n")).collect();
    let printed = format!("{listed}= 0 127 0\n");
    due_in_both(&[lone.clone(), full.clone(), lone].map(Some), &printed);
    due_on_each(Some(&files(MOST_ROWS, "")), "refused @ 3 129\n");
    due_on_each(Some(&files(MOST_ROWS, "\x01\n")), "refused @ 3 129\n");
}

/// On the line of the 129th row every other number goes before 3.
#[test]
fn other_faults_of_the_129th_row() {
    for (line, number) in [
        ("x @1\n", 3),
        ("x type=dir\n", 3),
        ("x @1 \x01\n", 7),
        (". type=dir\n", 11),
        ("x/ @1\n", 8),
        ("x type=file\n", 9),
        ("x type=link\n", 10),
        ("000 @1\n", 13),
        ("\\060\\060\\060 type=dir\n", 13),
    ] {
        let full = files(MOST_ROWS - 1, line);
        due_on_each(Some(&full), &format!("refused @ {number} 129\n"));
    }
    let first_line_of_it = files(MOST_ROWS - 1, "# c\n\nx \\\n\\\n@1\n");
    due_on_each(Some(&first_line_of_it), "refused @ 3 131\n");
}

/// A depth of 17 goes before the 129th row.
#[test]
fn too_deep_at_the_129th_row() {
    let mut short = String::from("/set type=dir\n.\n");
    (0..111).for_each(|row| short.push_str(&format!("f{row}\n..\n")));
    (0..16).for_each(|row| short.push_str(&format!("d{row}\n")));
    due_in_both(
        &[(); 3].map(|()| Some(short.clone().into_bytes())),
        "= 0 0 0\n",
    );
    short.push_str("deeper\n");
    due_on_each(Some(short.as_bytes()), "refused @ 14 241\n");
    let up = short.replace("deeper", "..\nbeside");
    due_on_each(Some(up.as_bytes()), "refused @ 3 242\n");
}

#[test]
fn deepest() {
    let names: String = (1..=15)
        .map(|depth| format!("n{depth} type=dir\n"))
        .collect();
    let path: String = (1..=15).map(|depth| format!("n{depth}/")).collect();
    let folders = text(&format!(". type=dir\n{names}"));
    let one = text(&format!(". type=dir\n{names}end @1\n"));
    let other = text(&format!(". type=dir\n{names}end @2\n"));
    let files = |given: [&Vec<u8>; 3]| given.map(|text| Some(text.clone()));
    let line = |mark: &str, counts: &str| format!("{mark} ./{path}end\n= {counts}\n");
    due_in_both(&files([&folders, &folders, &one]), &line("<", "1 0 0"));
    due_in_both(&files([&one, &one, &folders]), &line("<", "1 0 0"));
    due_in_both(&files([&one, &other, &one]), &line(">", "0 1 0"));
    due_in_both(&files([&folders, &one, &other]), &line("!", "0 0 1"));
    due_in_both(&files([&one, &other, &other]), "= 0 0 0\n");
    // From the top on where one side has none of it.
    let lone = text(". type=dir\n");
    due_in_both(&files([&lone, &one, &lone]), "> ./n1\n= 0 1 0\n");
    due_in_both(&files([&one, &other, &lone]), "! ./n1\n= 0 0 1\n");
    let deeper = text(&format!(". type=dir\n{names}n16 type=dir\nend @1\n"));
    due_on_each(Some(&deeper), "refused @ 14 18\n");
}
