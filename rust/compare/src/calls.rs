//! The calls as include/kantifero.h declares them, declared here a second time so that the answer's
//! eight words can be looked at. Before a call they all hold [`UNWRITTEN`]. The profile is a word of
//! which any but 0 ignores letter case.

// The archive is linked by this crate.
use kantifero as _;

/// What an answer's words hold before a call; no answer has this word.
pub const UNWRITTEN: u32 = 0xC0FF_EE11;

/// An answer's eight words.
pub type Words = [u32; 8];

extern "C" {
    fn kantifero_check(profile: u32, table: *const u32, words: usize, answer: *mut u32);
    fn kantifero_reconcile(
        profile: u32,
        archive: *const u32,
        archive_words: usize,
        left: *const u32,
        left_words: usize,
        right: *const u32,
        right_words: usize,
        new_archive: *mut u32,
        new_archive_words: usize,
        new_left: *mut u32,
        new_left_words: usize,
        new_right: *mut u32,
        new_right_words: usize,
        list: *mut u32,
        list_words: usize,
        tally: *mut u32,
        answer: *mut u32,
    );
    fn kantifero_move(
        profile: u32,
        target: *const u32,
        target_words: usize,
        source: *const u32,
        source_words: usize,
        names: *const [u32; 8],
        depth: u32,
        result: *mut u32,
        result_words: usize,
        answer: *mut u32,
    );
    fn kantifero_carried(
        profile: u32,
        left: *const u32,
        left_words: usize,
        right: *const u32,
        right_words: usize,
        kind: u32,
        left_row: u32,
        right_row: u32,
        answer: *mut u32,
    );
    fn kantifero_write(
        profile: u32,
        table: *const u32,
        words: usize,
        text: *mut u8,
        bytes: usize,
        answer: *mut u32,
    );
    fn kantifero_read(
        profile: u32,
        text: *const u8,
        bytes: usize,
        table: *mut u32,
        words: usize,
        answer: *mut u32,
    );
}

// SAFETY of all calls below: each pointer is a slice's or an array's, with its length, so it is
// never null; what is written is borrowed mutably, so it overlaps nothing else.

/// Checks a table.
pub fn check(profile: u32, table: &[u32]) -> Words {
    let mut answer = [UNWRITTEN; 8];
    unsafe { kantifero_check(profile, table.as_ptr(), table.len(), answer.as_mut_ptr()) };
    answer
}

/// Reconciles archive, left and right into the new archive, left, right and list.
pub fn reconcile(
    profile: u32,
    tables: [&[u32]; 3],
    lent: [&mut [u32]; 4],
    tally: &mut [u32; 3],
) -> Words {
    let [archive, left, right] = tables;
    let [new_archive, new_left, new_right, list] = lent;
    let mut answer = [UNWRITTEN; 8];
    unsafe {
        kantifero_reconcile(
            profile,
            archive.as_ptr(),
            archive.len(),
            left.as_ptr(),
            left.len(),
            right.as_ptr(),
            right.len(),
            new_archive.as_mut_ptr(),
            new_archive.len(),
            new_left.as_mut_ptr(),
            new_left.len(),
            new_right.as_mut_ptr(),
            new_right.len(),
            list.as_mut_ptr(),
            list.len(),
            tally.as_mut_ptr(),
            answer.as_mut_ptr(),
        )
    };
    answer
}

/// Carries out one move.
pub fn make_move(
    profile: u32,
    target: &[u32],
    source: &[u32],
    names: &[[u32; 8]; 16],
    depth: u32,
    result: &mut [u32],
) -> Words {
    let mut answer = [UNWRITTEN; 8];
    unsafe {
        kantifero_move(
            profile,
            target.as_ptr(),
            target.len(),
            source.as_ptr(),
            source.len(),
            names.as_ptr(),
            depth,
            result.as_mut_ptr(),
            result.len(),
            answer.as_mut_ptr(),
        )
    };
    answer
}

/// Where the rows stand that an entry carries.
pub fn carried(profile: u32, left: &[u32], right: &[u32], entry: [u32; 3]) -> Words {
    let [kind, left_row, right_row] = entry;
    let mut answer = [UNWRITTEN; 8];
    unsafe {
        kantifero_carried(
            profile,
            left.as_ptr(),
            left.len(),
            right.as_ptr(),
            right.len(),
            kind,
            left_row,
            right_row,
            answer.as_mut_ptr(),
        )
    };
    answer
}

/// Writes a table as a listing.
pub fn write(profile: u32, table: &[u32], text: &mut [u8]) -> Words {
    let mut answer = [UNWRITTEN; 8];
    unsafe {
        kantifero_write(
            profile,
            table.as_ptr(),
            table.len(),
            text.as_mut_ptr(),
            text.len(),
            answer.as_mut_ptr(),
        )
    };
    answer
}

/// Reads a listing into a table.
pub fn read(profile: u32, text: &[u8], table: &mut [u32]) -> Words {
    let mut answer = [UNWRITTEN; 8];
    unsafe {
        kantifero_read(
            profile,
            text.as_ptr(),
            text.len(),
            table.as_mut_ptr(),
            table.len(),
            answer.as_mut_ptr(),
        )
    };
    answer
}
