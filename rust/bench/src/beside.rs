//! Reconciling where letter case is ignored beside reconciling where it counts: three times 4,096 rows.

use kantifero::MOST_ROWS;
use reference::generate::{self, Change, Random, Shape, CHANGES, SHAPES};
use reference::Profile::{Exact, Folded};
use reference::{Profile, Rooms};

use crate::calls::{exact, library_reconcile};
use crate::named;
use crate::timing::{times, Time};

/// The times of one shape and change.
#[derive(Clone, Debug)]
pub struct Pair {
    /// The shape of the trees and how they differ.
    pub shape: String,
    /// Every byte counts.
    pub exact: Time,
    /// The same tables with letter case ignored.
    pub folded: Time,
    /// The same trees with letter case ignored, each of the three in spellings of its own.
    pub respelled: Time,
}

impl Pair {
    /// How often the time where case counts fits in that of the same tables where it is ignored.
    pub fn same_tables(&self) -> f64 {
        self.folded.median / self.exact.median
    }

    /// The same with the trees in spellings of their own.
    pub fn own_spellings(&self) -> f64 {
        self.respelled.median / self.exact.median
    }
}

/// Measures and prints all shapes and changes.
pub fn measured(rng: &mut Random) -> Vec<Pair> {
    println!("\n### Letter case ignored beside counted: reconcile of three times 4,096 rows\n");
    println!(
        "| trees | exact us | folded us | respelled us | folded / exact | respelled / exact |"
    );
    println!("|---|--:|--:|--:|--:|--:|");
    let mut pairs = Vec::new();
    for shape in SHAPES {
        for change in CHANGES {
            let pair = pair(rng, shape, change);
            let micros = |time: Time| format!("{:.2}", time.median / 1000.0);
            println!(
                "| {} | {} | {} | {} | {:.2} | {:.2} |",
                pair.shape,
                micros(pair.exact),
                micros(pair.folded),
                micros(pair.respelled),
                pair.same_tables(),
                pair.own_spellings()
            );
            pairs.push(pair);
        }
    }
    pairs
}

/// Buffers for what comes of the tables.
fn room(profile: Profile, [o, l, r]: &[Vec<u32>; 3]) -> reference::lent::Buffers {
    let outcome = reference::reconcile(profile, o, l, r, Rooms::AMPLE);
    exact(&outcome.expect("what one side changes keeps its rows"))
}

/// The names are in small letters, so that the tables are good in both profiles.
fn pair(rng: &mut Random, shape: Shape, change: Change) -> Pair {
    let tables = generate::changed(rng, Exact, shape, MOST_ROWS, change).tables();
    let respelled = tables.each_ref().map(|table| {
        let tree = reference::check(Folded, table).expect("good in both profiles");
        reference::table(&generate::respelled(rng, Folded, &tree))
    });
    let mut lent = [
        room(Exact, &tables),
        room(Folded, &tables),
        room(Folded, &respelled),
    ];
    let [one, two, three] = &mut lent;
    let ([exact, folded, respelled], _) = times([
        &mut || library_reconcile(Exact, &tables, one),
        &mut || library_reconcile(Folded, &tables, two),
        &mut || library_reconcile(Folded, &respelled, three),
    ]);
    Pair {
        shape: named(shape, &format!("{change:?}").to_lowercase()),
        exact,
        folded,
        respelled,
    }
}
