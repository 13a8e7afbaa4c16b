//! Damaged and altered tables through every call that takes one.

use compare::{both, Case, Tried};
use reference::generate::{self, Damage, DAMAGES};
use reference::{Rooms, MOST_ROWS, PROFILES, ROW};

/// One table, in each place of each call; the others are good.
fn every_call(case: &mut Case, good: &[u32], table: &[u32]) {
    let room = 3 * ROW + good.len() + table.len();
    let rooms = Rooms {
        archive: room,
        left: room,
        right: room,
        list: room,
    };
    both::check(case, table);
    both::reconcile(case, [table, good, good], rooms);
    both::reconcile(case, [good, table, good], rooms);
    both::reconcile(case, [good, good, table], rooms);
    let mut names = [[0; 8]; 16];
    names[0] = reference::name_words(b"a");
    both::make_move(case, table, good, (&names, 1), room);
    both::make_move(case, good, table, (&names, 1), room);
    both::write(case, table, 200 * room / ROW);
    let entry = generate::entry(&mut case.rng, good.len() / ROW, table.len() / ROW);
    both::carried(case, good, table, entry);
    both::carried(case, table, good, entry);
}

fn good_pair(case: &mut Case, most: usize) -> [Vec<u32>; 2] {
    let size = generate::size(&mut case.rng).min(most);
    let [_, left, right] = generate::three(&mut case.rng, case.profile, size).tables();
    [left, right]
}

/// What each damaged table must have come to in either profile, and where letter case is ignored.
const BROKEN: [(&str, u64); 15] = [
    ("check 1", 1_000),
    ("check 2", 2_500),
    ("reconcile 1 side 1", 500),
    ("reconcile 1 side 2", 500),
    ("reconcile 1 side 3", 500),
    ("reconcile 2 side 1", 1_500),
    ("reconcile 2 side 2", 1_500),
    ("reconcile 2 side 3", 1_500),
    ("move 1 side 2", 500),
    ("move 1 side 3", 500),
    ("move 2 side 2", 1_500),
    ("move 2 side 3", 1_500),
    ("write 1", 500),
    ("write 2", 1_500),
    ("carried from 0", 5_000),
];
const TWINS: [(&str, u64); 9] = [
    ("check 16 side 1", 300),
    ("reconcile 16 side 1", 300),
    ("reconcile 16 side 2", 300),
    ("reconcile 16 side 3", 300),
    ("move 16 side 2", 300),
    ("move 16 side 3", 300),
    ("write 16 side 1", 300),
    ("carried none for 16 side 2", 50),
    ("carried none for 16 side 3", 50),
];

#[test]
fn every_rule_broken() {
    let mut tried = Tried::new("every rule broken");
    for damage in DAMAGES {
        tried.cases(2_000_000, 1_000, |case| {
            let [good, table] = good_pair(case, 60);
            let Some(damaged) = generate::damaged(&mut case.rng, case.profile, &table, damage)
            else {
                return;
            };
            case.saw(&format!("{damage:?}"));
            if both::check(case, &damaged.table) {
                case.fail("a damaged table is taken");
            }
            every_call(case, &good, &damaged.table);
        });
    }
    let broken = DAMAGES.map(|damage| format!("{damage:?}"));
    let mut least: Vec<_> = broken.iter().map(|damage| (damage.as_str(), 150)).collect();
    least.extend(BROKEN);
    tried.end(&least, &TWINS);
}

/// The table with twins at times, and at times with another rule broken too.
fn hurt(case: &mut Case, table: &[u32]) -> Vec<u32> {
    let mut table = table.to_vec();
    let other = case.rng.pick(&DAMAGES);
    for damage in [Damage::Twin, other] {
        if case.rng.one_in(3) {
            let damaged = generate::damaged(&mut case.rng, case.profile, &table, damage);
            table = damaged.map_or(table, |damaged| damaged.table);
        }
    }
    table
}

/// Counts tables with twins before a table with another fault, which is told first.
fn saw_order(case: &mut Case, tables: &[Vec<u32>; 3]) {
    let number = |table| reference::check(case.profile, table).map_or_else(|no| no.number, |_| 0);
    let numbers = tables.each_ref().map(|table| number(table));
    let first = |fits: fn(&u32) -> bool| numbers.iter().position(fits);
    let (twins, other) = (first(|no| *no == 16), first(|no| matches!(no, 1 | 2)));
    if twins.is_some() && twins < other {
        case.saw("twins before another fault");
    }
}

/// What faults must have been told in either profile, and where letter case is ignored.
const FAULTS: [(&str, u64); 8] = [
    ("reconcile", 3_000),
    ("reconcile 2 side 1", 500),
    ("reconcile 2 side 3", 150),
    ("reconcile 3 side 1", 50),
    ("move 2 side 2", 500),
    ("move 3", 50),
    ("move 5", 25),
    ("write 3", 250),
];
const FOLDED_FAULTS: [(&str, u64); 7] = [
    ("reconcile 16 side 1", 100),
    ("reconcile 16 side 2", 100),
    ("reconcile 16 side 3", 50),
    ("move 16 side 2", 100),
    ("move 16 side 3", 100),
    ("write 16 side 1", 100),
    ("twins before another fault", 100),
];

/// Two damaged tables, too little room and a bad path at once: which fault is told.
#[test]
fn several_faults_at_once() {
    let mut tried = Tried::new("several faults at once");
    tried.cases(2_100_000, 6_000, |case| {
        let size = generate::size(&mut case.rng).min(30);
        let three = generate::three(&mut case.rng, case.profile, size);
        let mut tables = three.tables();
        for table in &mut tables {
            *table = hurt(case, table);
        }
        saw_order(case, &tables);
        let [archive, left, right] = tables.each_ref().map(Vec::as_slice);
        let mut room = || case.rng.below(2 * ROW * size);
        let rooms = Rooms {
            archive: room(),
            left: room(),
            right: room(),
            list: room() / 4,
        };
        both::reconcile(case, [archive, left, right], rooms);
        let (names, depth) = generate::path(&mut case.rng, case.profile, &three.left, &three.right);
        both::make_move(case, left, right, (&names, depth), rooms.left);
        both::write(case, archive, rooms.archive);
    });
    tried.end(&FAULTS, &FOLDED_FAULTS);
}

/// One word changed: many of these tables are still good, and are then reconciled and moved.
#[test]
fn one_word_changed() {
    let mut tried = Tried::new("one word changed");
    tried.cases(2_200_000, 8_000, |case| {
        let [good, table] = good_pair(case, 40);
        let altered = generate::altered(&mut case.rng, &table);
        every_call(case, &good, &altered);
    });
    tried.end(
        &[
            ("check", 4_000),
            ("check 0", 750),
            ("check 2", 2_000),
            ("reconcile 0", 2_000),
            ("write 0", 750),
            ("move 0", 500),
            ("carried from 2", 150),
            ("carried from 3", 150),
        ],
        &[],
    );
}

/// Tables of either profile in the calls of either: out of order, with twins, or good in both.
#[test]
fn tables_of_either_profile() {
    let mut tried = Tried::new("tables of either profile");
    tried.cases(2_400_000, 4_000, |case| {
        let made = case.rng.pick(&PROFILES);
        let size = generate::size(&mut case.rng).min(12);
        let three = generate::three(&mut case.rng, made, size);
        let [archive, left, right] = three.tables();
        let [exact, folded] = PROFILES.map(|profile| reference::check(profile, &left).err());
        match (exact, folded) {
            (None, Some(no)) if no.number == 16 => case.saw("twins by key alone"),
            (None, None) => case.saw("good in both"),
            _ => case.saw("out of order in one of them"),
        }
        every_call(case, &archive, &left);
        let (names, depth) = generate::path(&mut case.rng, made, &three.left, &three.right);
        let room = left.len() + right.len();
        both::make_move(case, &left, &right, (&names, depth), room);
    });
    let came = [
        "twins by key alone",
        "good in both",
        "out of order in one of them",
    ];
    let mut least = came.map(|what| (what, 20)).to_vec();
    least.extend([("check 0", 500), ("check 2", 200), ("move 0", 500)]);
    tried.end(&least, &[("check 16 side 1", 20)]);
}

/// The last rows of tables of up to 4,096 rows, damaged or not.
#[test]
fn large_tables() {
    let mut tried = Tried::new("large tables");
    tried.cases(2_300_000, 240, |case| {
        let rng = &mut case.rng;
        let rows = rng.pick(&[500, MOST_ROWS - 1, MOST_ROWS, MOST_ROWS]);
        let shape = rng.pick(&generate::SHAPES);
        let table = reference::table(&generate::shaped(rng, case.profile, shape, rows));
        both::check(case, &table);
        both::write(case, &table, 70_000);
        let damage = case.rng.pick(&DAMAGES);
        if let Some(damaged) = generate::damaged(&mut case.rng, case.profile, &table, damage) {
            both::check(case, &damaged.table);
        }
        // One row more than there may be.
        let mut long = table.clone();
        long.extend_from_within(table.len() - ROW..);
        both::check(case, &long);
    });
    tried.end(
        &[
            ("check", 350),
            ("check 0", 120),
            ("check 1", 50),
            ("check 2", 50),
            ("write 0", 5),
            ("write 3", 50),
        ],
        &[],
    );
}
