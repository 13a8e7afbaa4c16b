//! Random files by the thousand against the reference, in both profiles by turns. The variable
//! SYNCPLAN_ROUNDS says how many rounds each test has; a failure names the seed of its round.

use reference::generate::{self, Random, FAULTS};
use reference::{plan, table, write, Entries, Node, Profile, PROFILES};
use std::env;
use syncplan_tests::{Files, Folder, MOST_BYTES, SIDES};

fn count() -> u64 {
    let given = env::var("SYNCPLAN_ROUNDS");
    given.map_or(2000, |count| count.parse().expect("a number of rounds"))
}

/// Says which round failed, and of what files.
struct Round {
    seed: u64,
    profile: Profile,
    files: Files,
}

impl Drop for Round {
    fn drop(&mut self) {
        if std::thread::panicking() {
            eprintln!("the round of seed {} failed, {:?}", self.seed, self.profile);
            for (side, file) in SIDES.iter().zip(&self.files) {
                match file {
                    Some(text) => eprintln!("{side}: {}", text.escape_ascii()),
                    None => eprintln!("{side}: no file"),
                }
            }
        }
    }
}

/// Runs rounds from a seed on, and gives how many ended in a plan. What the files are made with may
/// say what is due; the reference must say the same.
fn rounds(first: u64, make: impl Fn(&mut Random, Profile) -> (Files, Option<String>)) -> u64 {
    let folder = Folder::new();
    let mut plans = 0;
    for seed in first..first + count() {
        let profile = PROFILES[(seed - first) as usize % 2];
        let mut round = Round {
            seed,
            profile,
            files: [None, None, None],
        };
        let (files, known) = make(&mut Random::new(seed), profile);
        round.files = files;
        let due = plan(profile, round.files.each_ref().map(|file| file.as_deref()));
        if let Some(known) = known {
            assert_eq!(due, known, "the reference");
        }
        folder.put_all(&round.files);
        folder.due(profile, &due);
        plans += u64::from(!due.starts_with("refused"));
    }
    plans
}

fn rows(rng: &mut Random) -> usize {
    match rng.below(20) {
        0 => 100 + rng.below(40),
        1..=4 => 20 + rng.below(60),
        5..=11 => 6 + rng.below(14),
        _ => 1 + rng.below(6),
    }
}

/// A listing of a tree, laid out at random or as the writer does it.
fn laid(rng: &mut Random, profile: Profile, tree: &Node) -> Vec<u8> {
    let plain = rng.one_in(4) || tree.rows() > 80;
    let written = write(profile, &table(tree), usize::MAX).ok();
    let written = written.filter(|_| plain);
    let text = written.unwrap_or_else(|| generate::listing(rng, tree));
    match rng.below(20) {
        0 => generate::padded(&text, MOST_BYTES - 1 + rng.below(3)),
        _ => text,
    }
}

/// Three trees with a common past, at times beneath folders that all of them have.
fn trees(rng: &mut Random, profile: Profile) -> [Node; 3] {
    let rows = rows(rng);
    let three = generate::three(rng, profile, rows);
    let mut trees = [three.archive, three.left, three.right];
    let folders = if rng.one_in(4) { rng.below(16) } else { 0 };
    for _ in 0..folders {
        let name = generate::name(rng, profile);
        let beneath = |tree| Node::Folder(Entries::from([(name.clone(), tree)]));
        trees = trees.map(beneath);
    }
    trees.map(|tree| generate::respelled(rng, profile, &tree))
}

fn listings(rng: &mut Random, profile: Profile) -> Files {
    let trees = trees(rng, profile);
    trees.map(|tree| Some(laid(rng, profile, &tree)))
}

/// A small good listing.
fn good(rng: &mut Random, profile: Profile) -> Vec<u8> {
    let rows = 1 + rng.below(12);
    let tree = generate::tree(rng, profile, rows);
    generate::listing(rng, &tree)
}

/// A file with a fault of a known number, and the number and place that are due.
fn faulty(rng: &mut Random, profile: Profile) -> (Vec<u8>, u32, u32) {
    let number = rng.pick(&FAULTS);
    if number == 3 {
        let text = generate::crowd(129 + rng.below(20));
        return (text, 3, 257);
    }
    let rows = 1 + rng.below(60);
    let tree = generate::tree(rng, profile, rows);
    let made = generate::faulty(rng, profile, &tree, number);
    match made.text.len() > MOST_BYTES {
        true => (made.text, 6, 0),
        false => (made.text, made.number, made.place),
    }
}

fn anything(rng: &mut Random, profile: Profile) -> Option<Vec<u8>> {
    let text = match rng.below(16) {
        0 => return None,
        1 => Vec::new(),
        2 => (0..rng.below(300)).map(|_| rng.byte()).collect(),
        3 | 4 => generate::soup(rng),
        5 => generate::crowd(126 + rng.below(5)),
        6 => faulty(rng, profile).0,
        7 => {
            let text = good(rng, profile);
            generate::hurt(rng, &text)
        }
        _ => good(rng, profile),
    };
    Some(text)
}

#[test]
fn trees_in_random_layouts() {
    let plans = rounds(1_000_000_000, |rng, profile| (listings(rng, profile), None));
    assert!(plans > count() * 8 / 10, "only {plans} plans");
}

/// One or two bytes of one of the files are changed, put in or taken out.
#[test]
fn damaged_bytes() {
    let plans = rounds(2_000_000_000, |rng, profile| {
        let mut files = listings(rng, profile);
        let file = files[rng.below(3)].as_mut().expect("a listing");
        for _ in 0..=rng.below(2) {
            *file = generate::hurt(rng, file);
        }
        (files, None)
    });
    assert!(plans > count() / 10, "only {plans} plans");
    assert!(plans < count() * 9 / 10, "as many as {plans} plans");
}

/// One file has a known fault, those before it have none.
#[test]
fn faulty_files() {
    let plans = rounds(3_000_000_000, |rng, profile| {
        let side = rng.below(3);
        let (text, number, place) = faulty(rng, profile);
        let mut files = [(); 3].map(|()| anything(rng, profile));
        (0..side).for_each(|before| files[before] = Some(good(rng, profile)));
        files[side] = Some(text);
        let due = format!("refused {} {number} {place}\n", SIDES[side]);
        (files, Some(due))
    });
    assert_eq!(plans, 0);
}

#[test]
fn files_of_any_sort() {
    let plans = rounds(4_000_000_000, |rng, profile| {
        let files = [(); 3].map(|()| anything(rng, profile));
        (files, None)
    });
    assert!(plans > count() / 10, "only {plans} plans");
}
