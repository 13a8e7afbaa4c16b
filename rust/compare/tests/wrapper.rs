//! The safe wrapper tells what the reference does.

use compare::{Case, Tried};
use kantifero::{Buffers, Refusal, Tally};
use reference::generate::{self, DAMAGES};
use reference::{Answer, Rooms, MOST_BYTES, ROW};

/// The case's profile as the wrapper has it.
fn told_profile(case: &Case) -> kantifero::Profile {
    match case.profile {
        reference::Profile::Exact => kantifero::Profile::Exact,
        reference::Profile::Folded => kantifero::Profile::Folded,
    }
}

/// A refusal of the wrapper's with the reference's numbers.
fn told<T, U>(answer: Answer<T>, made: impl Fn(T) -> U) -> Result<U, Refusal> {
    answer.map(made).map_err(|no| Refusal {
        number: no.number,
        side: no.side,
        place: no.place,
    })
}

/// Three tables, of which one is damaged at times.
fn tables(case: &mut Case) -> ([Vec<u32>; 3], generate::Three) {
    let size = generate::size(&mut case.rng).min(60);
    let three = generate::three(&mut case.rng, case.profile, size);
    let mut tables = three.tables();
    if case.rng.one_in(6) {
        let (side, damage) = (case.rng.below(3), case.rng.pick(&DAMAGES));
        if let Some(damaged) = generate::damaged(&mut case.rng, case.profile, &tables[side], damage)
        {
            tables[side] = damaged.table;
        }
    }
    (tables, three)
}

/// Counts whether a call was accepted, and refusals with 16 by themselves too.
fn saw<T>(case: &mut Case, call: &str, answer: &Result<T, Refusal>) {
    let ended = if answer.is_ok() { "taken" } else { "refused" };
    case.saw(&format!("{call} {ended}"));
    if answer.as_ref().is_err_and(|no| no.number == 16) {
        case.saw(&format!("{call} 16"));
    }
}

/// What the wrapper makes of an outcome.
fn reconciled(due: reference::Outcome) -> kantifero::Reconciled {
    let [left, right, clash] = due.tally;
    kantifero::Reconciled {
        archive: due.archive,
        left: due.left,
        right: due.right,
        list: due.list,
        tally: Tally { left, right, clash },
    }
}

/// Reconciles into lent buffers of these rooms.
fn in_lent(case: &mut Case, [archive, left, right]: [&[u32]; 3], rooms: Rooms) {
    let mut theirs = reference::lent::Buffers::filled(rooms, 5);
    let due = reference::lent::reconcile(case.profile, archive, left, right, &mut theirs);
    let mut lent = reference::lent::Buffers::filled(rooms, 5);
    let mut tally = Tally {
        left: 5,
        right: 5,
        clash: 5,
    };
    let buffers = Buffers {
        archive: &mut lent.archive,
        left: &mut lent.left,
        right: &mut lent.right,
        list: &mut lent.list,
    };
    let profile = told_profile(case);
    let ours = kantifero::reconcile(profile, archive, left, right, buffers, &mut tally);
    lent.tally = [tally.left, tally.right, tally.clash];
    saw(case, "lent", &ours);
    let counts = |[archive, left, right, list]: [u32; 4]| kantifero::Counts {
        archive: archive as usize,
        left: left as usize,
        right: right as usize,
        list: list as usize,
    };
    case.same("in lent buffers", &[ours], &[told(due, counts)]);
    case.same("the buffers", &[lent], &[theirs]);
}

#[test]
fn reconcile() {
    let mut tried = Tried::new("the wrapper's reconcile");
    tried.cases(6_000_000, 4_000, |case| {
        let ([archive, left, right], _) = tables(case);
        let due = reference::reconcile(case.profile, &archive, &left, &right, Rooms::AMPLE);
        let rooms = match &due {
            Ok(due) => generate::rooms(&mut case.rng, due),
            Err(_) => Rooms::AMPLE,
        };
        let profile = told_profile(case);
        let ours = kantifero::reconcile_in_new(profile, &archive, &left, &right);
        saw(case, "in new", &ours);
        case.same("in new buffers", &[ours], &[told(due, reconciled)]);
        in_lent(case, [&archive, &left, &right], rooms);
    });
    tried.end(
        &[
            ("in new taken", 1_500),
            ("in new refused", 150),
            ("lent taken", 1_000),
            ("lent refused", 250),
        ],
        &[("in new 16", 10), ("lent 16", 10)],
    );
}

/// A move of the left, and the rows that an entry carries.
fn moving(case: &mut Case, left: &[u32], right: &[u32], three: &generate::Three) {
    let profile = told_profile(case);
    let (names, depth) = generate::path(&mut case.rng, case.profile, &three.left, &three.right);
    let room = generate::room(&mut case.rng, three.left.rows(), ROW);
    let (mut lent, mut theirs) = (vec![5; room], vec![5; room]);
    let ours = kantifero::make_move(profile, left, right, &names, depth, &mut lent);
    let due = reference::lent::make_move(case.profile, left, right, &names, depth, &mut theirs);
    saw(case, "move", &ours);
    case.same("move", &[ours], &[told(due, |rows| rows)]);
    case.same("result", &lent, &theirs);

    let entry = generate::entry(&mut case.rng, left.len() / ROW, right.len() / ROW);
    let ours = kantifero::carried(profile, left, right, entry);
    let part = reference::carried(case.profile, left, right, entry[0], entry[1], entry[2]);
    let due = part.map_or(&[] as &[u32], |part| {
        let table = if part.side == 2 { left } else { right };
        &table[part.start..part.start + part.words]
    });
    case.same("carried", ours, due);
    if !due.is_empty() {
        case.saw("carried rows");
    }
}

/// The left written, and a text of it read.
fn listing(case: &mut Case, left: &[u32], three: &generate::Three) {
    let profile = told_profile(case);
    let room = case.rng.below(2 * MOST_BYTES / 20);
    let (mut lent, mut theirs) = (vec![5; room], vec![5; room]);
    let ours = kantifero::write(profile, left, &mut lent);
    let due = reference::lent::write(case.profile, left, &mut theirs);
    saw(case, "write", &ours);
    case.same("write", &[ours], &[told(due, |bytes| bytes)]);
    case.same("text", &lent, &theirs);

    let mut text = generate::listing(&mut case.rng, &three.left);
    if case.rng.one_in(3) {
        text = generate::hurt(&mut case.rng, &text);
    }
    let room = generate::room(&mut case.rng, three.left.rows(), ROW);
    let (mut lent, mut theirs) = (vec![5; room], vec![5; room]);
    let ours = kantifero::read(profile, &text, &mut lent);
    let due = reference::lent::read(case.profile, &text, &mut theirs);
    saw(case, "read", &ours);
    case.same("read", &[ours], &[told(due, |rows| rows)]);
    case.same("table", &lent, &theirs);
}

#[test]
fn the_other_calls() {
    let mut tried = Tried::new("the wrapper's other calls");
    tried.cases(6_100_000, 6_000, |case| {
        let ([_, left, right], three) = tables(case);
        let ours = kantifero::check(told_profile(case), &left);
        saw(case, "check", &ours);
        let due = reference::check(case.profile, &left);
        case.same("check", &[ours], &[told(due, |_| ())]);
        moving(case, &left, &right, &three);
        listing(case, &left, &three);
    });
    tried.end(
        &[
            ("check taken", 2_500),
            ("check refused", 50),
            ("move taken", 1_000),
            ("move refused", 500),
            ("carried rows", 500),
            ("write taken", 1_000),
            ("write refused", 250),
            ("read taken", 1_000),
            ("read refused", 500),
        ],
        &[("check 16", 5), ("move 16", 10), ("write 16", 5)],
    );
}
