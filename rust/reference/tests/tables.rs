//! Tables and their trees: damage, and the limits on both sides.

mod common;

use common::{no, rows, wide};
use reference::generate::{self, Random, DAMAGES};
use reference::Profile::Exact;
use reference::{check, table, Node, DEEPEST, MOST_ROWS, PROFILES, ROW};

#[test]
fn each_damage_is_refused_at_its_row() {
    for profile in PROFILES {
        let mut rng = Random::new(1);
        let mut seen = [0; DAMAGES.len()];
        for _ in 0..2000 {
            let size = generate::size(&mut rng);
            let good = table(&generate::tree(&mut rng, profile, size));
            assert!(check(profile, &good).is_ok());
            for (i, damage) in DAMAGES.into_iter().enumerate() {
                if let Some(bad) = generate::damaged(&mut rng, profile, &good, damage) {
                    seen[i] += 1;
                    let due = [bad.number, 1, bad.place];
                    assert_eq!(no(check(profile, &bad.table)), due, "{damage:?}");
                }
            }
        }
        assert!(seen.iter().all(|&count| count > 1000), "{seen:?}");
    }
}

#[test]
fn a_table_is_its_tree() {
    for profile in PROFILES {
        let mut rng = Random::new(2);
        for _ in 0..1500 {
            let size = generate::size(&mut rng);
            let tree = generate::tree(&mut rng, profile, size);
            let words = table(&tree);
            assert_eq!(words.len(), size * ROW);
            let read = check(profile, &words).unwrap();
            assert_eq!(read, tree);
            assert_eq!(table(&read), words);
            let altered = generate::altered(&mut rng, &words);
            if let Ok(other) = check(profile, &altered) {
                assert_eq!(table(&other), altered);
            }
        }
    }
}

#[test]
fn table_limits() {
    assert_eq!(check(Exact, &wide(MOST_ROWS)).unwrap().rows(), MOST_ROWS);
    assert_eq!(no(check(Exact, &wide(MOST_ROWS + 1))), [1, 1, 0]);
    assert_eq!(no(check(Exact, &[])), [1, 1, 0]);
    let mut deep = Node::default();
    for _ in 1..DEEPEST {
        deep = Node::Folder([(Exact.name(b"a"), deep)].into());
    }
    let sixteen = Node::Folder([(Exact.name(b"a"), deep)].into());
    assert!(check(Exact, &table(&sixteen)).is_ok());
    let seventeen = Node::Folder([(Exact.name(b"a"), sixteen)].into());
    assert_eq!(no(check(Exact, &table(&seventeen))), [2, 1, 17]);
    let mut full = rows(&[("abcdefghijklmnopqrstuvwxyz012345", 1)]);
    assert!(check(Exact, &full).is_ok());
    // Depth is at most one more, and that only after a folder.
    full.extend(table(&Node::default()));
    full[2 * ROW] = 2;
    full[2 * ROW + 2] = 0x6100_0000;
    assert_eq!(no(check(Exact, &full)), [2, 1, 2]);
}
