//! Lines put into a layout: where one may stand, a name that is free there, and putting it in.

use super::layout::{Before, Layout, Line, What};
use super::words::{line_ends, name_word};
use super::{trees, Random};
use crate::name::Profile;
use crate::tree::Node;

/// A random place for a line at which the given holds.
pub(super) fn spot(rng: &mut Random, layout: &Layout, fits: impl Fn(&Before) -> bool) -> usize {
    let all = 0..=layout.lines.len();
    let spots: Vec<usize> = all.filter(|&at| fits(layout.before(at))).collect();
    rng.pick(&spots)
}

/// Puts lines in, of which the last is the faulty one, and gives that one's number.
pub(super) fn inserted(layout: &mut Layout, at: usize, lines: Vec<Vec<u8>>) -> u32 {
    let earlier = &lines[..lines.len() - 1];
    let number = layout.number(at) + line_ends(earlier.iter().flatten());
    let before = layout.before(at).clone();
    let made = lines.into_iter().map(|bytes| Line {
        bytes,
        what: What::Entry,
        before: before.clone(),
    });
    layout.lines.splice(at..at, made);
    number
}

/// A word for a name that is not listed yet.
pub(super) fn fresh_name(rng: &mut Random, profile: Profile, before: &Before) -> Vec<u8> {
    let names = before.names.iter();
    let listed = names.map(|name| (name.clone(), Node::default())).collect();
    let name = trees::fresh(rng, profile, &listed);
    name_word(rng, 6, name.spelled())
}
