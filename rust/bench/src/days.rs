//! Trees of a clinic's days: files with names of 32 bytes that share the first 28, all of one size.

use kantifero::MOST_ROWS;
use reference::generate::Random;
use reference::{Entries, Node, Profile};

/// What every name begins with; four digits follow.
const BEGIN: &str = "left-ear-hours-of-wearing-on";
const _: () = assert!(BEGIN.len() == 28);

/// Archive, left and right, and how they differ.
type Given = (&'static str, [Node; 3]);

/// A day with a digest at random.
fn day(rng: &mut Random) -> Node {
    Node::File {
        size: 1440,
        digest: [(); 8].map(|()| rng.word()),
    }
}

/// A folder of days.
fn folder(profile: Profile, days: Vec<Node>) -> Node {
    let named = days.into_iter().enumerate();
    let entries: Entries = named
        .map(|(number, day)| (profile.name(format!("{BEGIN}{number:04}").as_bytes()), day))
        .collect();
    Node::Folder(entries)
}

/// Days in the root, as many as there may be: each day has three digests, or all three trees are equal.
pub fn in_the_root(profile: Profile) -> [Given; 2] {
    let rng = &mut Random::new(32);
    let mut root = || folder(profile, (1..MOST_ROWS).map(|_| day(rng)).collect());
    let differ = [root(), root(), root()];
    let equal = [(); 3].map(|()| differ[0].clone());
    [("days, all differ", differ), ("days, all equal", equal)]
}

/// A folder of days, as many as there may be, which the left has no more: one day differs between archive and right.
pub fn in_a_folder(profile: Profile) -> [Given; 3] {
    let rng = &mut Random::new(28);
    let days: Vec<Node> = (2..MOST_ROWS).map(|_| day(rng)).collect();
    let root = |days: Vec<Node>| {
        let ear = (profile.name(b"L"), folder(profile, days));
        Node::Folder(Entries::from([ear]))
    };
    let last = days.len() - 1;
    let places = [
        ("folder, first differs", 0),
        ("folder, middle differs", last / 2),
        ("folder, last differs", last),
    ];
    places.map(|(differs, place)| {
        let mut corrected = days.clone();
        corrected[place] = day(rng);
        let trees = [root(days.clone()), Node::default(), root(corrected)];
        (differs, trees)
    })
}
