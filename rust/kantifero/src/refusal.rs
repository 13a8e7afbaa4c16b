//! Why a call was refused: the number, and a sentence for each.

use std::fmt;

/// Why a call refused what it was given. Nothing that was lent to the call has changed, but that [`read`](crate::read)
/// leaves its table all zero.
#[derive(Clone, Copy, Debug, PartialEq, Eq, Hash)]
pub struct Refusal {
    /// The reason, 1 to 14 or 16; see [`reason`](Refusal::reason).
    pub number: u32,
    /// Which table or result: 1 archive (or the one table of a call), 2 left (or a move's target and its result), 3 right
    /// (or a move's source), 4 list, 0 where it is none of them.
    pub side: u32,
    /// The row of numbers 2 and 16, the line of a text, and else 0.
    pub place: u32,
}

impl Refusal {
    /// What the number says.
    pub fn reason(&self) -> &'static str {
        match self.number {
            1 => "the table is not 20 words times 1 to 4,096",
            2 => "the row breaks the rules",
            3 => "the result has more than 4,096 rows or 65,536 bytes, or more than the room lent",
            4 => "the path's parent is not a folder in the target",
            5 => "the path's depth or one of its names is bad",
            6 => "the text is longer than 65,536 bytes, or its last byte is not LF",
            7 => "the line has a byte that is not text",
            8 => "the line has a bad name",
            9 => "the line has a bad or missing keyword, an unknown / word, or words after \"..\"",
            10 => "the line's type is missing or is neither dir nor file, or the root's is not dir",
            11 => "the line is an entry before \".\" or after the root closed, a second \".\", or \"..\" with nothing open",
            12 => "the text has no root",
            13 => "the line's name is in its folder already",
            14 => "the line is at depth 17",
            16 => "the row's name is its sibling's where letter case is ignored",
            _ => "a number that no call gives",
        }
    }
}

impl fmt::Display for Refusal {
    fn fmt(&self, f: &mut fmt::Formatter<'_>) -> fmt::Result {
        f.write_str(self.reason())?;
        match self.side {
            1 => f.write_str(", archive or only table")?,
            2 => f.write_str(", left or target")?,
            3 => f.write_str(", right or source")?,
            4 => f.write_str(", list")?,
            _ => (),
        }
        match self.number {
            2 | 16 => write!(f, ", row {}", self.place),
            _ if self.place != 0 => write!(f, ", line {}", self.place),
            _ => Ok(()),
        }
    }
}

impl std::error::Error for Refusal {}
