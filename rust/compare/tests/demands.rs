//! What moves leave to do, asked of the library itself. Moves, second run and closing run are in the
//! profile of the first run.

use compare::{calls, Case, Tried};
use reference::generate::{self, Three};
use reference::{check, slots, Path, CLASH, LEFT_GETS, MOST_ROWS, NO_ROW, ROW};

/// What the library makes of three tables.
struct Run {
    trees: [Vec<u32>; 3],
    /// Kinds and paths.
    list: Vec<(u32, Path)>,
}

/// Reconciles archive, left and right.
fn run(case: &mut Case, tables: [&[u32]; 3]) -> Option<Run> {
    let words: usize = tables.iter().map(|table| table.len()).sum();
    let mut lent = [(); 4].map(|()| vec![0; words]);
    let mut tally = [0; 3];
    let rooms = lent.each_mut().map(Vec::as_mut_slice);
    let answer = calls::reconcile(case.word(), tables, rooms, &mut tally);
    if answer[0] != 0 {
        return None;
    }
    let paths = |table: &[u32]| check(case.profile, table).unwrap().paths();
    let (left, right) = (paths(tables[1]), paths(tables[2]));
    let path = |entry: &[u32]| match entry[1] {
        NO_ROW => right[entry[2] as usize].clone(),
        row => left[row as usize].clone(),
    };
    let entries = lent[3].chunks_exact(3).take(answer[6] as usize);
    let list = entries.map(|entry| (entry[0], path(entry))).collect();
    let [archive, left, right, _] = lent;
    let mut trees = [archive, left, right];
    for (tree, rows) in trees.iter_mut().zip(&answer[3..6]) {
        tree.truncate(ROW * *rows as usize);
    }
    Some(Run { trees, list })
}

/// Carries out one listed move on the two sides, if it is accepted.
fn carry_out(case: &mut Case, kind: u32, path: &Path, sides: &mut [Vec<u32>; 2]) -> bool {
    let (names, depth) = slots(path);
    let target = if kind == LEFT_GETS { 0 } else { 1 };
    let mut result = vec![0; sides[0].len() + sides[1].len()];
    let answer = calls::make_move(
        case.word(),
        &sides[target],
        &sides[1 - target],
        &names,
        depth,
        &mut result,
    );
    if answer[0] == 0 {
        result.truncate(ROW * answer[2] as usize);
        sides[target] = result;
    }
    answer[0] == 0
}

/// The trees must be equal in the profile, and more than is asked, their tables to the byte.
fn same_trees(case: &Case, now: &Run, then: &Run) {
    for (side, name) in ["new archive", "new left", "new right"].iter().enumerate() {
        let (now, then) = (&now.trees[side], &then.trees[side]);
        if check(case.profile, now) != check(case.profile, then) {
            case.fail(&format!("the {name} is another tree"));
        }
        case.same(&format!("the {name}'s words"), now, then);
    }
}

/// Some moves in any order, a run on what they leave, and a run on the results.
fn cut_short(case: &mut Case, three: &Three) {
    let [archive, left, right] = three.tables();
    let Some(first) = run(case, [&archive, &left, &right]) else {
        case.saw("refused");
        return;
    };
    case.saw("run");
    let mut moves: Vec<_> = first.list.iter().filter(|entry| entry.0 != CLASH).collect();
    case.rng.shuffle(&mut moves);
    moves.truncate(case.rng.below(moves.len() + 1));
    let mut sides = [left, right];
    let mut rest = first.list.clone();
    for (kind, path) in moves {
        if carry_out(case, *kind, path, &mut sides) {
            case.saw("move");
            rest.retain(|entry| entry.1 != *path);
        } else {
            case.saw("move refused");
        }
    }
    let [left, right] = &sides;
    let Some(again) = run(case, [&archive, left, right]) else {
        case.fail("the second run is refused");
    };
    case.same("the rest", &again.list, &rest);
    same_trees(case, &again, &first);

    let [archive, left, right] = &first.trees;
    let Some(last) = run(case, [archive, left, right]) else {
        case.fail("the run on the results is refused");
    };
    let mut clashes = first.list.clone();
    clashes.retain(|entry| entry.0 == CLASH);
    if !clashes.is_empty() {
        case.saw("run with a clash");
    }
    case.same("the clashes", &last.list, &clashes);
    same_trees(case, &last, &first);
}

#[test]
fn some_moves_leave_the_rest() {
    let mut tried = Tried::new("some moves leave the rest");
    tried.cases(5_000_000, 8_000, |case| {
        let size = generate::size(&mut case.rng).min(100);
        let three = generate::three(&mut case.rng, case.profile, size);
        cut_short(case, &three);
    });
    tried.end(
        &[("run", 4_000), ("move", 5_000), ("run with a clash", 1_000)],
        &[],
    );
}

/// At 4,096 rows a move that adds is refused until one that removes has been made.
#[test]
fn large_trees() {
    let mut tried = Tried::new("some moves leave the rest, large");
    tried.cases(5_100_000, 36, |case| {
        let rng = &mut case.rng;
        let shape = rng.pick(&generate::SHAPES);
        let rows = rng.pick(&[500, MOST_ROWS]);
        let change = rng.pick(&[generate::Change::Moves, generate::Change::Clashes]);
        let three = generate::changed(rng, case.profile, shape, rows, change);
        cut_short(case, &three);
    });
    tried.end(
        &[
            ("run", 18),
            ("move", 500),
            ("move refused", 20),
            ("run with a clash", 5),
        ],
        &[],
    );
}
