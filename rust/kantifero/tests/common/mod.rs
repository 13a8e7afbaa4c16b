//! Tables from rows, and the cases by name.
#![allow(dead_code)]
use kantifero::{NO_ROW, ROW};

/// What no call writes.
pub const CANARY: u32 = 0xC0FF_EE11;

/// A row of a depth, kind and name, whose digest begins with a word.
pub fn row(depth: u32, kind: u32, name: &[u8], digest: u32) -> Vec<u32> {
    let mut row = vec![0; ROW];
    row[0] = depth;
    row[1] = kind;
    row[2..10].copy_from_slice(&kantifero::name(name).unwrap());
    row[12] = digest;
    row
}

/// The root and these rows.
pub fn tree(rows: &[Vec<u32>]) -> Vec<u32> {
    let mut table = vec![0; ROW];
    table.extend(rows.iter().flatten());
    table
}

/// A file in the root.
pub fn file(name: &[u8], digest: u32) -> Vec<u32> {
    row(1, 1, name, digest)
}

/// Archive, left, right, the list and the new archive of a case.
pub type Case = (Vec<u32>, Vec<u32>, Vec<u32>, Vec<[u32; 3]>, Vec<u32>);

/// C1 to C11.
pub fn cases() -> Vec<Case> {
    let none = || tree(&[]);
    let f = || tree(&[file(b"p", 1)]);
    let g = || tree(&[file(b"p", 2)]);
    let empty = || tree(&[row(1, 0, b"p", 0)]);
    let inside = |name: &[u8], digest| tree(&[row(1, 0, b"p", 0), row(2, 1, name, digest)]);
    let both = tree(&[row(1, 0, b"p", 0), row(2, 1, b"x", 1), row(2, 1, b"y", 2)]);
    vec![
        (none(), none(), none(), vec![], none()),
        (none(), f(), none(), vec![[2, 1, NO_ROW]], f()),
        (none(), f(), f(), vec![], f()),
        (none(), f(), g(), vec![[3, 1, 1]], none()),
        (f(), none(), f(), vec![[2, NO_ROW, 1]], none()),
        (f(), none(), g(), vec![[3, NO_ROW, 1]], f()),
        (f(), none(), none(), vec![], none()),
        (
            inside(b"x", 1),
            none(),
            inside(b"x", 2),
            vec![[3, NO_ROW, 1]],
            inside(b"x", 1),
        ),
        (
            inside(b"x", 1),
            empty(),
            g(),
            vec![[3, 1, 1]],
            inside(b"x", 1),
        ),
        (f(), empty(), f(), vec![[2, 1, 1]], empty()),
        (
            f(),
            inside(b"x", 1),
            inside(b"y", 2),
            vec![[2, 2, NO_ROW], [1, NO_ROW, 2]],
            both,
        ),
    ]
}
