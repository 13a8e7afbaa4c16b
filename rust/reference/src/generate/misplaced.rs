//! Lines that would be good elsewhere: numbers 11, 13 and 14.

use super::layout::{Before, Layout};
use super::spelling::recased;
use super::spots::{fresh_name, inserted, spot};
use super::words::{extra, file_words, name_word, spaced, type_word};
use super::{trees, Random};
use crate::name::Profile;
use crate::table::DEEPEST;

/// A line that must not stand where it does.
pub(super) fn bad_place(rng: &mut Random, profile: Profile, layout: &mut Layout) -> u32 {
    let (way, rest) = (rng.below(4), extra(rng));
    let closed = |before: &Before| before.root && before.open == 0;
    let outside = |before: &Before| before.open == 0;
    let name = trees::name(rng, profile);
    let (at, first) = match way {
        0 => (spot(rng, layout, |before| before.root), b".".to_vec()),
        1 => (spot(rng, layout, outside), b"..".to_vec()),
        2 if closed(&layout.end) => (spot(rng, layout, closed), b"a/b".to_vec()),
        _ => (
            spot(rng, layout, outside),
            name_word(rng, 6, name.spelled()),
        ),
    };
    let line = spaced(rng, 6, &first, &rest);
    inserted(layout, at, vec![line])
}

/// Lists a name a second time, as a file or as a folder, in any letter case if case is ignored.
pub(super) fn twice(rng: &mut Random, profile: Profile, layout: &mut Layout) -> u32 {
    let any = layout
        .lines
        .iter()
        .any(|line| !line.before.names.is_empty());
    let at = spot(rng, layout, |before| {
        before.open > 0 && before.open <= DEEPEST && !(any && before.names.is_empty())
    });
    let before = layout.before(at).clone();
    let mut lines = Vec::new();
    let mut words = file_words(rng).to_vec();
    let name = match before.names.is_empty() {
        false => rng.pick(&before.names).spelled().to_vec(),
        true => {
            lines.push(spaced(rng, 6, b"new", &words));
            b"new".to_vec()
        }
    };
    if rng.one_in(2) {
        words = vec![type_word(true)];
    }
    let name = match profile {
        Profile::Exact => name,
        Profile::Folded => recased(rng, &name),
    };
    let first = name_word(rng, 6, &name);
    lines.push(spaced(rng, 6, &first, &words));
    inserted(layout, at, lines)
}

/// Opens folders down to depth 16 and lists an entry in the last.
pub(super) fn too_deep(rng: &mut Random, profile: Profile, layout: &mut Layout) -> u32 {
    let at = spot(rng, layout, |before| before.open > 0);
    let before = layout.before(at).clone();
    let mut first = fresh_name(rng, profile, &before);
    let mut lines = Vec::new();
    for _ in before.open..=DEEPEST {
        lines.push(spaced(rng, 6, &first, &[type_word(true)]));
        first = name_word(rng, 6, b"a");
    }
    let words = match rng.one_in(2) {
        true => vec![type_word(true)],
        false => file_words(rng).to_vec(),
    };
    lines.push(spaced(rng, 6, &first, &words));
    inserted(layout, at, lines)
}
