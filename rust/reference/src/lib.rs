//! Document 01 worked out a second time, in plain Rust and from the paper alone, with document 02's
//! request A1 (letter case).
//!
//! Nothing here is proved and nothing is made fast. The point is that it shares no line with the
//! proved library, so that a mistake in how the paper was understood shows as a difference.
//!
//! Every call takes a [`Profile`], which says how a [`Name`] is matched. Trees are ordinary maps
//! ([`Node`]). A call answers with what it made, or with a [`Refusal`].
//! The module [`lent`] has the same calls over lent buffers, and [`generate`] makes the random
//! inputs of a comparison.
#![forbid(unsafe_code)]
#![deny(missing_docs)]

mod answer;
mod carry;
pub mod generate;
pub mod lent;
mod listing;
mod moves;
mod name;
mod plan;
mod reading;
mod reconcile;
mod table;
mod tree;

pub use answer::{numbers, Answer, Refusal, ARCHIVE, LEFT, LIST, RIGHT};
pub use carry::{carried, Part};
pub use listing::{spelled, write, MOST_BYTES};
pub use moves::{make_move, slots, Slots};
pub use name::{Name, Profile, PROFILES};
pub use plan::plan;
pub use reading::read;
pub use reconcile::{reconcile, Entry, Outcome, Rooms, CLASH, LEFT_GETS, RIGHT_GETS};
pub use table::{
    check, check_all, good_name, name_bytes, name_words, path_of, table, DEEPEST, MOST_ROWS,
    NAME_BYTES, NO_ROW, ROW,
};
pub use tree::{Entries, Node, Path};
