//! The proved library and the reference on the same random inputs.
//!
//! Each function of [`both`] makes one call of the library and the same one of the reference, and
//! compares all eight words of the answer and every word or byte of every lent buffer, with what
//! lies around the buffers. [`Tried`] runs a test's cases, each from a seed of its own that a
//! failure names, and counts what was answered, so that a test that compared nothing fails.
#![deny(missing_docs)]

pub mod both;
pub mod calls;
mod lent;
mod tried;

pub use lent::{Lent, Mark};
pub use tried::{Case, Tried};
