//! What moves leave to do, over random trees.

use reference::generate::{self, Random, Three};
use reference::{
    carried, check, make_move, reconcile, slots, table, Node, Outcome, Path, Profile, Rooms, CLASH,
    LEFT, LEFT_GETS, MOST_ROWS, NO_ROW, PROFILES, RIGHT_GETS, ROW,
};

const AMPLE: usize = MOST_ROWS * ROW;

/// The list's kinds and paths.
fn listed(profile: Profile, outcome: &Outcome, left: &[u32], right: &[u32]) -> Vec<(u32, Path)> {
    let [left, right] = [left, right].map(|table| check(profile, table).unwrap().paths());
    let path = |entry: &[u32; 3]| match entry[1] {
        NO_ROW => right[entry[2] as usize].clone(),
        row => left[row as usize].clone(),
    };
    outcome
        .list
        .iter()
        .map(|entry| (entry[0], path(entry)))
        .collect()
}

/// Random trees to reconcile that fit all limits, and what came of them.
fn accepted(rng: &mut Random, profile: Profile, most: usize) -> ([Vec<u32>; 3], Outcome) {
    let size = generate::size(rng).min(most);
    let tables = generate::three(rng, profile, size).tables();
    let outcome = reconcile(profile, &tables[0], &tables[1], &tables[2], Rooms::AMPLE).unwrap();
    (tables, outcome)
}

/// Carries out one listed move on the two sides.
fn carry_out(profile: Profile, kind: u32, path: &Path, sides: &mut [Vec<u32>; 2]) {
    let (names, depth) = slots(path);
    let target = match kind {
        LEFT_GETS => 0,
        RIGHT_GETS => 1,
        _ => unreachable!("a clash is no move"),
    };
    let (to, from) = (&sides[target], &sides[1 - target]);
    sides[target] = make_move(profile, to, from, &names, depth, AMPLE).unwrap();
}

/// Some moves of a run in any order; the kinds in the list are counted.
fn cut_short(rng: &mut Random, profile: Profile, kinds: &mut [u32; 3]) {
    let ([o, l, r], first) = accepted(rng, profile, 100);
    let list = listed(profile, &first, &l, &r);
    for (kind, total) in kinds.iter_mut().enumerate() {
        *total += first.tally[kind];
    }
    let mut order: Vec<_> = list.iter().filter(|entry| entry.0 != CLASH).collect();
    rng.shuffle(&mut order);
    let done = rng.below(order.len() + 1);
    let mut sides = [l, r];
    for (kind, path) in &order[..done] {
        carry_out(profile, *kind, path, &mut sides);
    }
    let [left, right] = &sides;
    let again = reconcile(profile, &o, left, right, Rooms::AMPLE).unwrap();
    let is_left = |entry: &&(u32, Path)| !order[..done].contains(entry);
    let rest: Vec<_> = list.iter().filter(is_left).cloned().collect();
    assert_eq!(listed(profile, &again, left, right), rest);
    // The tables are alike to the byte, also where letter case is ignored.
    assert_eq!(again.archive, first.archive);
    assert_eq!((&again.left, &again.right), (&first.left, &first.right));
    for (kind, path) in &order[done..] {
        carry_out(profile, *kind, path, &mut sides);
    }
    assert_eq!(sides, [first.left, first.right]);
}

#[test]
fn any_moves_in_any_order_leave_exactly_the_rest() {
    for profile in PROFILES {
        let mut rng = Random::new(7);
        let mut kinds = [0; 3];
        for _ in 0..1000 {
            cut_short(&mut rng, profile, &mut kinds);
        }
        assert!(kinds.iter().all(|&total| total > 400), "{kinds:?}");
    }
}

#[test]
fn a_run_on_the_results_lists_only_the_clashes() {
    for profile in PROFILES {
        let mut rng = Random::new(8);
        for _ in 0..800 {
            let ([_, l, r], first) = accepted(&mut rng, profile, 600);
            let (archive, left, right) = (&first.archive, &first.left, &first.right);
            let next = reconcile(profile, archive, left, right, Rooms::AMPLE).unwrap();
            let mut clashes = listed(profile, &first, &l, &r);
            clashes.retain(|entry| entry.0 == CLASH);
            assert_eq!(listed(profile, &next, left, right), clashes);
            assert_eq!(next.archive, first.archive);
            assert_eq!((next.left, next.right), (first.left, first.right));
        }
    }
}

/// The new archive told apart from how it was built: at each path by what decides it there.
#[test]
fn the_new_archive_by_cases() {
    for profile in PROFILES {
        let mut rng = Random::new(9);
        for _ in 0..1000 {
            let ([o, l, r], outcome) = accepted(&mut rng, profile, 100);
            let tree = |words: &[u32]| check(profile, words).unwrap();
            let (old, new) = (tree(&o), tree(&outcome.archive));
            let (left, right) = (tree(&outcome.left), tree(&outcome.right));
            let mut expected = left.clone();
            for (kind, path) in listed(profile, &outcome, &l, &r) {
                if kind == CLASH {
                    assert_eq!(new.at(&path), old.at(&path));
                    // Taken away first, so that the old name comes with its spelling.
                    expected.put(&path, None);
                    if let Some(spelled) = old.spelled(&path) {
                        expected.put(&spelled, old.at(&path).cloned());
                    }
                } else {
                    assert_eq!(left.at(&path), right.at(&path));
                }
            }
            assert_eq!(outcome.archive, table(&expected));
        }
    }
}

#[test]
fn left_and_right_change_places() {
    for profile in PROFILES {
        let mut rng = Random::new(10);
        for _ in 0..1000 {
            let ([o, l, r], one) = accepted(&mut rng, profile, 600);
            let other = reconcile(profile, &o, &r, &l, Rooms::AMPLE).unwrap();
            assert_eq!((&one.left, &one.right), (&other.right, &other.left));
            let archive = |outcome: &Outcome| check(profile, &outcome.archive).unwrap();
            assert_eq!(archive(&one), archive(&other));
            let turned = |entry: &[u32; 3]| [[0, 2, 1, 3][entry[0] as usize], entry[2], entry[1]];
            assert_eq!(one.list.iter().map(turned).collect::<Vec<_>>(), other.list);
        }
    }
}

#[test]
fn rooms_are_exact() {
    let mut rng = Random::new(11);
    let mut refused = [0; 5];
    for round in 0..3000 {
        let profile = PROFILES[round % 2];
        let ([o, l, r], outcome) = accepted(&mut rng, profile, 60);
        let rooms = generate::rooms(&mut rng, &outcome);
        let words = [rooms.archive, rooms.left, rooms.right, rooms.list];
        let counts = outcome.counts();
        let is_short =
            |side: &usize| words[*side] < counts[*side] as usize * [ROW, ROW, ROW, 3][*side];
        let answer = reconcile(profile, &o, &l, &r, rooms);
        match ((0..4).find(is_short), answer) {
            (None, Ok(same)) => assert_eq!(same, outcome),
            (Some(side), Err(no)) => {
                assert_eq!((no.number, no.side, no.place), (3, side as u32 + 1, 0));
                refused[side] += 1;
            }
            (due, answer) => panic!("{due:?} {answer:?}"),
        }
    }
    assert!(refused[..4].iter().all(|&count| count > 50), "{refused:?}");
}

/// The rows carried are those the other side has at the path afterwards.
#[test]
fn the_rows_carried_arrive() {
    let mut rng = Random::new(12);
    for round in 0..2000 {
        let profile = PROFILES[round % 2];
        let ([_, l, r], outcome) = accepted(&mut rng, profile, 100);
        let new_left = check(profile, &outcome.left).unwrap();
        let paths = listed(profile, &outcome, &l, &r);
        for (entry, (kind, path)) in outcome.list.iter().zip(paths) {
            let part = carried(profile, &l, &r, entry[0], entry[1], entry[2]);
            let Some(part) = part else {
                assert!(kind == CLASH || new_left.at(&path).is_none());
                continue;
            };
            let from = if part.side == LEFT { &l } else { &r };
            let mut rows = from[part.start..part.start + part.words].to_vec();
            // As a tree of its own the part hangs beneath a root, one deep.
            for row in rows.chunks_mut(ROW) {
                row[0] -= path.len() as u32 - 1;
            }
            let whole = [table(&Node::default()), rows].concat();
            let carried = check(profile, &whole).unwrap();
            assert_eq!(carried.at(&path[path.len() - 1..]), new_left.at(&path));
        }
        let [kind, left, right] = generate::entry(&mut rng, l.len() / ROW, r.len() / ROW);
        let part = carried(profile, &l, &r, kind, left, right);
        assert!(part.is_none_or(|part| part.words > 0));
    }
}

#[test]
fn random_moves() {
    for profile in PROFILES {
        let mut rng = Random::new(13);
        let mut seen = [0; 6];
        for _ in 0..4000 {
            let size = generate::size(&mut rng).min(60);
            let Three { left, right, .. } = generate::three(&mut rng, profile, size);
            let (names, depth) = generate::path(&mut rng, profile, &left, &right);
            let room = generate::room(&mut rng, left.rows(), ROW);
            let (target, source) = (table(&left), table(&right));
            match make_move(profile, &target, &source, &names, depth, room) {
                Ok(words) => {
                    seen[0] += 1;
                    assert!(words.len() <= room);
                    // A second time it changes nothing.
                    let again = make_move(profile, &words, &source, &names, depth, room);
                    assert_eq!(again.unwrap(), words);
                }
                Err(no) => seen[no.number as usize] += 1,
            }
        }
        for number in [0, 3, 4, 5] {
            assert!(seen[number] > 70, "{seen:?}");
        }
    }
}
