//! Trees and texts to measure with.

use reference::generate::{self, Random, Shape};
use reference::{Entries, Name, Node, Profile, MOST_BYTES};

/// The bytes of names in ascending order.
const LETTERS: &[u8; 64] = b"-0123456789ABCDEFGHIJKLMNOPQRSTUVWXYZ_abcdefghijklmnopqrstuvwxyz";

/// Those of names in ascending order of which none is another in the other letter case.
const SMALL: &[u8; 38] = b"-0123456789_abcdefghijklmnopqrstuvwxyz";

/// A name of two letters that ascends with its number. Where letter case is ignored it has a third at
/// times, since there are fewer, and every second name is in capital letters.
fn letters(profile: Profile, number: usize) -> Name {
    let spelled = match profile {
        Profile::Exact => vec![LETTERS[number / 64], LETTERS[number % 64]],
        Profile::Folded => {
            let (pair, third) = (number / 3, number % 3);
            let pair = [SMALL[pair / 38], SMALL[pair % 38]];
            let small = [&pair, [&b""[..], b"a", b"b"][third]].concat();
            match number % 2 {
                0 => small,
                _ => small.to_ascii_uppercase(),
            }
        }
    };
    profile.name(&spelled)
}

/// The tree with folders for its files and with names of two or three letters: so 4,096 rows fit a
/// text.
pub fn folders_alone(profile: Profile, node: &Node) -> Node {
    let Node::Folder(entries) = node else {
        return Node::default();
    };
    let named = entries.values().enumerate();
    let entries: Entries = named
        .map(|(number, node)| (letters(profile, number), folders_alone(profile, node)))
        .collect();
    Node::Folder(entries)
}

/// The text of a table.
pub fn text_of(profile: Profile, table: &[u32]) -> Vec<u8> {
    reference::write(profile, table, MOST_BYTES).expect("it fits a text")
}

/// A text of so many bytes: files in order, as many as fit, then a comment. Tells its rows too.
pub fn of_bytes(rng: &mut Random, profile: Profile, bytes: usize) -> (Vec<u8>, usize) {
    let mut rows = bytes / 100;
    loop {
        let tree = generate::shaped(rng, profile, Shape::Wide, rows);
        match reference::write(profile, &reference::table(&tree), bytes) {
            Ok(text) => return (generate::padded(&text, bytes), rows),
            Err(_) => rows -= 1,
        }
    }
}

/// In what order a folder's entries are listed.
#[derive(Clone, Copy, Debug, PartialEq, Eq)]
pub enum Order {
    /// As the writer lists them.
    Ascending,
    /// The last first.
    Descending,
    /// Any.
    Shuffled,
}

/// What the entries are.
#[derive(Clone, Copy, Debug, PartialEq, Eq)]
pub enum Kind {
    /// Files, of which fewer than 700 fit a text.
    Files,
    /// Empty folders, of which as many fit as a table may have.
    Folders,
}

/// A text of so many rows, all in the root.
pub fn ordered(
    rng: &mut Random,
    profile: Profile,
    kind: Kind,
    rows: usize,
    order: Order,
) -> Vec<u8> {
    let mut numbers: Vec<usize> = (0..rows - 1).collect();
    match order {
        Order::Ascending => {}
        Order::Descending => numbers.reverse(),
        Order::Shuffled => rng.shuffle(&mut numbers),
    }
    let mut text = b"#mtree\n. type=dir\n/set type=dir\n".to_vec();
    for number in numbers {
        text.extend(letters(profile, number).spelled());
        match kind {
            Kind::Folders => text.extend(b"\n..\n"),
            Kind::Files => {
                let digest: String = (0..8).map(|_| format!("{:08x}", rng.word())).collect();
                text.extend(format!(" type=file size=1 sha256digest={digest}\n").bytes());
            }
        }
    }
    text
}

/// The most files that a text has room for.
pub fn most_files() -> usize {
    // Three letters at most, the words, 64 digits and the line end.
    let line = 3 + " type=file size=1 sha256digest=".len() + 64 + 1;
    1 + (MOST_BYTES - "#mtree\n. type=dir\n/set type=dir\n".len()) / line
}
