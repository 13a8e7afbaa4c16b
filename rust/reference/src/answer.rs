//! What a call answers: number, side and place.

use std::fmt;

/// Side of the archive; also the side of a table that is written or only checked.
pub const ARCHIVE: u32 = 1;
/// Side of the left tree, and of a move's target.
pub const LEFT: u32 = 2;
/// Side of the right tree, and of a move's source.
pub const RIGHT: u32 = 3;
/// Side of the list.
pub const LIST: u32 = 4;

/// A call that was not accepted. What the paper does not name for a number is 0.
#[derive(Clone, Copy, Debug, PartialEq, Eq, Hash)]
pub struct Refusal {
    /// 1 to 14, or 16.
    pub number: u32,
    /// 1 archive, 2 left or target, 3 right or source, 4 list; 0 when reading, 1 when writing.
    pub side: u32,
    /// A row, or a line numbered from 1.
    pub place: u32,
}

/// What a call made, or why it was refused.
pub type Answer<T> = Result<T, Refusal>;

impl Refusal {
    /// A refusal with all three of its numbers.
    pub const fn new(number: u32, side: u32, place: u32) -> Self {
        Refusal {
            number,
            side,
            place,
        }
    }

    /// What the number means, in words.
    pub const fn sentence(&self) -> &'static str {
        match self.number {
            1 => "the table is not 20 words times 1 to 4,096",
            2 => "a row breaks the row rules",
            3 => "the result is over its limit or over the lent room",
            4 => "the path's parent is not a folder in the target",
            5 => "the path's depth or a name slot is bad",
            6 => "the text is too long, or its last byte is not a line end",
            7 => "a byte is not allowed outside comments",
            8 => "bad name",
            9 => "bad or missing keyword, unknown / word, or words after \"..\"",
            10 => "the type is missing, not dir or file, or the root is no folder",
            11 => {
                "the root or a folder's end stands in the wrong place, or an entry outside the root"
            }
            12 => "there is no root",
            13 => "the name stands twice in its folder",
            14 => "the entry would have depth 17",
            16 => "two siblings are equal where letter case is ignored",
            _ => "no such number",
        }
    }
}

impl fmt::Display for Refusal {
    fn fmt(&self, f: &mut fmt::Formatter<'_>) -> fmt::Result {
        write!(
            f,
            "{} (number {}, side {}, place {})",
            self.sentence(),
            self.number,
            self.side,
            self.place
        )
    }
}

impl std::error::Error for Refusal {}

/// Number, side and place of an answer whose accepted place is one count.
pub fn numbers(answer: &Answer<usize>) -> [u32; 3] {
    match answer {
        Ok(count) => [0, 0, *count as u32],
        Err(refusal) => [refusal.number, refusal.side, refusal.place],
    }
}
