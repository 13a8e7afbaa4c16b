//! What the calls take and give beside tables and texts.

/// How names are matched, and siblings ordered.
#[derive(Clone, Copy, Debug, Default, PartialEq, Eq, Hash)]
pub enum Profile {
    /// Every byte counts.
    #[default]
    Exact,
    /// Letter case is ignored: bytes 65 to 90 (A to Z) count as 97 to 122 (a to z), and no other byte as another. What is
    /// spelled in another way is no change, and every result keeps the spelling of the tree that it goes by.
    Folded,
}

/// The rows of the new archive, left and right, and the entries of the list.
#[derive(Clone, Copy, Debug, PartialEq, Eq, Hash)]
pub struct Counts {
    /// Rows of the new archive.
    pub archive: usize,
    /// Rows of the new left.
    pub left: usize,
    /// Rows of the new right.
    pub right: usize,
    /// Entries of the list, three words each.
    pub list: usize,
}

/// The entries of a list by their kind.
#[derive(Clone, Copy, Debug, Default, PartialEq, Eq, Hash)]
pub struct Tally {
    /// Kind 1: left gets.
    pub left: u32,
    /// Kind 2: right gets.
    pub right: u32,
    /// Kind 3: clash.
    pub clash: u32,
}

/// The buffers that a reconciliation writes.
#[derive(Debug)]
pub struct Buffers<'a> {
    /// For the new archive.
    pub archive: &'a mut [u32],
    /// For the new left.
    pub left: &'a mut [u32],
    /// For the new right.
    pub right: &'a mut [u32],
    /// For the list, three words an entry.
    pub list: &'a mut [u32],
}

/// What a reconciliation gives, in buffers of its own.
#[derive(Clone, Debug, PartialEq, Eq)]
pub struct Reconciled {
    /// The new archive.
    pub archive: Vec<u32>,
    /// The new left.
    pub left: Vec<u32>,
    /// The new right.
    pub right: Vec<u32>,
    /// The list: kind, left row, right row.
    pub list: Vec<[u32; 3]>,
    /// The list's entries by kind.
    pub tally: Tally,
}
