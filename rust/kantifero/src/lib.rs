//! Three-way reconciling of directory trees.
//!
//! A tree is a table: a slice of 32-bit words, [`ROW`] to a row, rows in preorder.
//!
//! | words | meaning |
//! |---|---|
//! | 0 | depth, 0 for the root, at most 16 |
//! | 1 | kind: 0 folder, 1 file |
//! | 2 to 9 | name, 1 to 32 bytes, four to a word, first byte highest, zero filled; see [`name`] |
//! | 10, 11 | size, high word then low |
//! | 12 to 19 | SHA-256 digest, first eight hex digits in word 12 |
//!
//! [`read`] makes a table of an mtree listing and [`write()`] a listing of a table; [`check`] tells whether a table keeps
//! the rules, which every other call does by itself. [`reconcile`] gives the new tables of both sides and of the archive,
//! and the list of moves and clashes; [`make_move`] carries out one move, and [`carried`] finds the rows it carries.
//!
//! Every call takes a [`Profile`], which says how names are matched. Tables, texts and moves of one run are all of one profile.
//!
//! The code behind the calls is proved: for every input each call returns, and answers and leaves in the lent buffers
//! what its contract says. It is a static library that this crate links; all unsafe code is in one module that hands it
//! slices.
//!
//! ```
//! use kantifero::Profile::Exact;
//!
//! // The archive is empty, left has a file p, right has nothing: right gets p.
//! let text = b"#mtree\n. type=dir\np type=file size=1 \
//!     sha256digest=e3b0c44298fc1c149afbf4c8996fb92427ae41e4649b934ca495991b7852b855\n";
//! let mut left = [0; 40];
//! assert_eq!(kantifero::read(Exact, text, &mut left), Ok(2));
//! let empty = [0; 20];
//!
//! let run = kantifero::reconcile_in_new(Exact, &empty, &left, &empty).unwrap();
//! assert_eq!(run.right, left);
//! assert_eq!(run.archive, left);
//! assert_eq!(run.list, [[2, 1, kantifero::NO_ROW]]);
//! assert_eq!(run.tally, kantifero::Tally { left: 0, right: 1, clash: 0 });
//!
//! // The rows to carry, and the move that carries them.
//! assert_eq!(kantifero::carried(Exact, &left, &empty, run.list[0]), &left[20..]);
//! let mut names = [[0; 8]; 16];
//! names[0] = kantifero::name(b"p").unwrap();
//! let mut right = [0; 40];
//! assert_eq!(kantifero::make_move(Exact, &empty, &left, &names, 1, &mut right), Ok(2));
//! assert_eq!(right, left);
//! ```
#![deny(missing_docs)]

mod raw;
mod refusal;
mod types;

pub use refusal::Refusal;
pub use types::{Buffers, Counts, Profile, Reconciled, Tally};

/// The words of a row.
pub const ROW: usize = 20;

/// The most rows of a table.
pub const MOST_ROWS: usize = 4096;

/// The most entries that a reconciliation lists.
pub const MOST_ENTRIES: usize = 12285;

/// The most bytes of a listing.
pub const MOST_BYTES: usize = 65536;

/// The row of an entry that a table does not have.
pub const NO_ROW: u32 = u32::MAX;

/// The place of an accepted answer, or the refusal.
fn place(answer: [u32; 8]) -> Result<usize, Refusal> {
    match answer {
        [0, _, place, ..] => Ok(place as usize),
        [number, side, place, ..] => Err(Refusal {
            number,
            side,
            place,
        }),
    }
}

/// The words of a name of 1 to 32 bytes, as a row or a path holds it; none for another length. Whether an entry may have
/// the name is told by the calls that are given it.
///
/// ```
/// assert_eq!(kantifero::name(b"p"), Some([0x7000_0000, 0, 0, 0, 0, 0, 0, 0]));
/// assert_eq!(kantifero::name(b""), None);
/// ```
pub fn name(bytes: &[u8]) -> Option<[u32; 8]> {
    if bytes.is_empty() || 32 < bytes.len() {
        return None;
    }
    let mut words = [0; 8];
    for (i, byte) in bytes.iter().enumerate() {
        words[i / 4] |= u32::from(*byte) << (24 - 8 * (i % 4));
    }
    Some(words)
}

/// Checks that a table keeps the rules: refusals 1, 2 and 16.
///
/// ```
/// use kantifero::Profile::{Exact, Folded};
///
/// assert_eq!(kantifero::check(Exact, &[0; 20]), Ok(()));
/// let refusal = kantifero::check(Exact, &[0; 40]).unwrap_err();
/// assert_eq!((refusal.number, refusal.side, refusal.place), (2, 1, 1));
///
/// // Two folders, A and a.
/// let mut table = [0; 60];
/// (table[20], table[22]) = (1, 0x4100_0000);
/// (table[40], table[42]) = (1, 0x6100_0000);
/// assert_eq!(kantifero::check(Exact, &table), Ok(()));
/// let refusal = kantifero::check(Folded, &table).unwrap_err();
/// assert_eq!((refusal.number, refusal.side, refusal.place), (16, 1, 2));
/// ```
pub fn check(profile: Profile, table: &[u32]) -> Result<(), Refusal> {
    place(raw::check(profile, table)).map(|_| ())
}

/// Reconciles left and right by the archive, into lent buffers. What lies past a result stays, and a refusal changes
/// neither a buffer nor the tally.
///
/// Where letter case is ignored, the new left has left's spelling of every path that left has, and right's of the others; the
/// new right the other way round; the new archive has the archive's at and beneath a clash, and the new left's elsewhere.
///
/// ```
/// # use kantifero::Profile::Exact;
/// let (empty, mut list) = ([0; 20], [0; 3]);
/// let (mut archive, mut left, mut right) = ([9; 20], [9; 20], [9; 21]);
/// let buffers = kantifero::Buffers { archive: &mut archive, left: &mut left, right: &mut right, list: &mut list };
/// let mut tally = kantifero::Tally::default();
/// let counts = kantifero::reconcile(Exact, &empty, &empty, &empty, buffers, &mut tally).unwrap();
/// assert_eq!(counts, kantifero::Counts { archive: 1, left: 1, right: 1, list: 0 });
/// assert_eq!((archive, right[20]), (empty, 9));
/// ```
pub fn reconcile(
    profile: Profile,
    archive: &[u32],
    left: &[u32],
    right: &[u32],
    buffers: Buffers<'_>,
    tally: &mut Tally,
) -> Result<Counts, Refusal> {
    let mut counted = [tally.left, tally.right, tally.clash];
    let lent = [buffers.archive, buffers.left, buffers.right, buffers.list];
    let answer = raw::reconcile(profile, [archive, left, right], lent, &mut counted);
    place(answer)?;
    *tally = Tally {
        left: counted[0],
        right: counted[1],
        clash: counted[2],
    };
    Ok(Counts {
        archive: answer[3] as usize,
        left: answer[4] as usize,
        right: answer[5] as usize,
        list: answer[6] as usize,
    })
}

/// Reconciles left and right by the archive, into new buffers, which have room for every result that is not refused.
///
/// ```
/// # use kantifero::Profile::Exact;
/// let refusal = kantifero::reconcile_in_new(Exact, &[0; 20], &[0; 19], &[0; 20]).unwrap_err();
/// assert_eq!(refusal.to_string(), "the table is not 20 words times 1 to 4,096, left or target");
/// ```
pub fn reconcile_in_new(
    profile: Profile,
    archive: &[u32],
    left: &[u32],
    right: &[u32],
) -> Result<Reconciled, Refusal> {
    let room = vec![0; ROW * MOST_ROWS];
    let (mut new_archive, mut new_left, mut new_right) = (room.clone(), room.clone(), room);
    let mut list = vec![0; 3 * MOST_ENTRIES];
    let mut tally = Tally::default();
    let buffers = Buffers {
        archive: &mut new_archive,
        left: &mut new_left,
        right: &mut new_right,
        list: &mut list,
    };
    let counts = reconcile(profile, archive, left, right, buffers, &mut tally)?;
    new_archive.truncate(ROW * counts.archive);
    new_left.truncate(ROW * counts.left);
    new_right.truncate(ROW * counts.right);
    list.truncate(3 * counts.list);
    Ok(Reconciled {
        archive: new_archive,
        left: new_left,
        right: new_right,
        list: list
            .chunks_exact(3)
            .map(|entry| [entry[0], entry[1], entry[2]])
            .collect(),
        tally,
    })
}

/// Carries out one move: the target's subtree at a path becomes the source's, absence included. The path is the first
/// `depth` names, 1 to 16, and the names past them are zero. The whole target afterwards is put into `result`, and its
/// rows are told. Where letter case is ignored, the path may be given in any spelling, and the result has the target's
/// spelling of every path that the target has, and the source's of the others.
///
/// ```
/// # use kantifero::Profile::Exact;
/// let refusal = kantifero::make_move(Exact, &[0; 20], &[0; 20], &[[0; 8]; 16], 1, &mut []).unwrap_err();
/// assert_eq!(refusal.number, 5);
/// ```
pub fn make_move(
    profile: Profile,
    target: &[u32],
    source: &[u32],
    names: &[[u32; 8]; 16],
    depth: u32,
    result: &mut [u32],
) -> Result<usize, Refusal> {
    place(raw::make_move(
        profile, target, source, names, depth, result,
    ))
}

/// The rows that a list entry carries: of right for kind 1, of left for kind 2, none for a removal, a clash or an entry
/// that fits neither table. The tables are those that were reconciled.
///
/// ```
/// # use kantifero::Profile::Exact;
/// assert!(kantifero::carried(Exact, &[0; 20], &[0; 20], [3, 0, 0]).is_empty());
/// assert_eq!(kantifero::carried(Exact, &[0; 20], &[0; 20], [1, 0, 0]).len(), 20);
/// ```
pub fn carried<'a>(
    profile: Profile,
    left: &'a [u32],
    right: &'a [u32],
    entry: [u32; 3],
) -> &'a [u32] {
    let [side, first, words, ..] = raw::carried(profile, left, right, entry);
    let table = match side {
        2 => left,
        3 => right,
        _ => return &[],
    };
    &table[first as usize..][..words as usize]
}

/// Writes a table as an mtree listing, and tells its bytes.
///
/// ```
/// # use kantifero::Profile::Exact;
/// let mut text = [0; 22];
/// assert_eq!(kantifero::write(Exact, &[0; 20], &mut text), Ok(21));
/// assert_eq!(&text, b"#mtree\n. type=dir\n..\n\0");
/// assert_eq!(kantifero::write(Exact, &[0; 20], &mut text[..20]).unwrap_err().number, 3);
/// ```
pub fn write(profile: Profile, table: &[u32], text: &mut [u8]) -> Result<usize, Refusal> {
    place(raw::write(profile, table, text))
}

/// Reads an mtree listing into a table, which is zeroed first, and tells its rows. After a refusal the table is all zero.
/// A type that /set gives as the default holds until another /set or /unset changes it.
///
/// ```
/// use kantifero::Profile::{Exact, Folded};
///
/// let mut table = [7; 40];
/// assert_eq!(kantifero::read(Exact, b". type=dir\n", &mut table), Ok(1));
/// assert_eq!(table, [0; 40]);
/// let refusal = kantifero::read(Exact, b"# a comment\n. type=file\n", &mut table).unwrap_err();
/// assert_eq!((refusal.number, refusal.place), (10, 2));
///
/// // The default that is set in a holds after it too.
/// let text = b". type=dir\na type=dir\n/set type=dir\n..\nb\n";
/// assert_eq!(kantifero::read(Exact, text, &mut [0; 60]), Ok(3));
///
/// // A and a are one name where letter case is ignored.
/// let text = b". type=dir\nA type=dir\n..\na type=dir\n";
/// let mut table = [0; 60];
/// assert_eq!(kantifero::read(Exact, text, &mut table), Ok(3));
/// assert_eq!(kantifero::read(Folded, text, &mut table).unwrap_err().number, 13);
/// ```
pub fn read(profile: Profile, text: &[u8], table: &mut [u32]) -> Result<usize, Refusal> {
    place(raw::read(profile, text, table))
}
