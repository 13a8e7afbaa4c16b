//! The calls as the archive exports them, and all the unsafe code there is: each function below hands a slice on as its
//! pointer and its length. A slice's pointer is never null, and the borrow checker sees to it that what is written
//! overlaps nothing else, which is all that the calls ask.

use crate::Profile;

mod exported {
    extern "C" {
        pub fn kantifero_check(
            profile: u32,
            table: *const u32,
            words: usize,
            answer: *mut [u32; 8],
        );
        pub fn kantifero_reconcile(
            profile: u32,
            archive: *const u32,
            archive_words: usize,
            left: *const u32,
            left_words: usize,
            right: *const u32,
            right_words: usize,
            new_archive: *mut u32,
            new_archive_words: usize,
            new_left: *mut u32,
            new_left_words: usize,
            new_right: *mut u32,
            new_right_words: usize,
            list: *mut u32,
            list_words: usize,
            tally: *mut [u32; 3],
            answer: *mut [u32; 8],
        );
        pub fn kantifero_move(
            profile: u32,
            target: *const u32,
            target_words: usize,
            source: *const u32,
            source_words: usize,
            names: *const [[u32; 8]; 16],
            depth: u32,
            result: *mut u32,
            result_words: usize,
            answer: *mut [u32; 8],
        );
        pub fn kantifero_carried(
            profile: u32,
            left: *const u32,
            left_words: usize,
            right: *const u32,
            right_words: usize,
            kind: u32,
            left_row: u32,
            right_row: u32,
            answer: *mut [u32; 8],
        );
        pub fn kantifero_write(
            profile: u32,
            table: *const u32,
            words: usize,
            text: *mut u8,
            bytes: usize,
            answer: *mut [u32; 8],
        );
        pub fn kantifero_read(
            profile: u32,
            text: *const u8,
            bytes: usize,
            table: *mut u32,
            words: usize,
            answer: *mut [u32; 8],
        );
    }
}

/// A profile as the calls take it.
fn word(profile: Profile) -> u32 {
    match profile {
        Profile::Exact => 0,
        Profile::Folded => 1,
    }
}

pub fn check(profile: Profile, table: &[u32]) -> [u32; 8] {
    let mut answer = [0; 8];
    // SAFETY: as said at the top of this file.
    unsafe { exported::kantifero_check(word(profile), table.as_ptr(), table.len(), &mut answer) };
    answer
}

/// The three tables, then the four buffers in the order archive, left, right, list.
pub fn reconcile(
    profile: Profile,
    tables: [&[u32]; 3],
    buffers: [&mut [u32]; 4],
    tally: &mut [u32; 3],
) -> [u32; 8] {
    let [archive, left, right] = tables;
    let [new_archive, new_left, new_right, list] = buffers;
    let mut answer = [0; 8];
    // SAFETY: as said at the top of this file.
    unsafe {
        exported::kantifero_reconcile(
            word(profile),
            archive.as_ptr(),
            archive.len(),
            left.as_ptr(),
            left.len(),
            right.as_ptr(),
            right.len(),
            new_archive.as_mut_ptr(),
            new_archive.len(),
            new_left.as_mut_ptr(),
            new_left.len(),
            new_right.as_mut_ptr(),
            new_right.len(),
            list.as_mut_ptr(),
            list.len(),
            tally,
            &mut answer,
        )
    };
    answer
}

pub fn make_move(
    profile: Profile,
    target: &[u32],
    source: &[u32],
    names: &[[u32; 8]; 16],
    depth: u32,
    result: &mut [u32],
) -> [u32; 8] {
    let mut answer = [0; 8];
    // SAFETY: as said at the top of this file.
    unsafe {
        exported::kantifero_move(
            word(profile),
            target.as_ptr(),
            target.len(),
            source.as_ptr(),
            source.len(),
            names,
            depth,
            result.as_mut_ptr(),
            result.len(),
            &mut answer,
        )
    };
    answer
}

pub fn carried(profile: Profile, left: &[u32], right: &[u32], entry: [u32; 3]) -> [u32; 8] {
    let [kind, left_row, right_row] = entry;
    let mut answer = [0; 8];
    // SAFETY: as said at the top of this file.
    unsafe {
        exported::kantifero_carried(
            word(profile),
            left.as_ptr(),
            left.len(),
            right.as_ptr(),
            right.len(),
            kind,
            left_row,
            right_row,
            &mut answer,
        )
    };
    answer
}

pub fn write(profile: Profile, table: &[u32], text: &mut [u8]) -> [u32; 8] {
    let mut answer = [0; 8];
    // SAFETY: as said at the top of this file.
    unsafe {
        exported::kantifero_write(
            word(profile),
            table.as_ptr(),
            table.len(),
            text.as_mut_ptr(),
            text.len(),
            &mut answer,
        )
    };
    answer
}

pub fn read(profile: Profile, text: &[u8], table: &mut [u32]) -> [u32; 8] {
    let mut answer = [0; 8];
    // SAFETY: as said at the top of this file.
    unsafe {
        exported::kantifero_read(
            word(profile),
            text.as_ptr(),
            text.len(),
            table.as_mut_ptr(),
            table.len(),
            &mut answer,
        )
    };
    answer
}
