//! The measured lines, as a table, and what they say about the goals.

use std::collections::BTreeMap;

use reference::Profile;

use crate::beside::Pair;
use crate::timing::Time;

/// One measured call.
#[derive(Clone, Debug)]
pub struct Line {
    /// The profile of the call.
    pub profile: Profile,
    /// The call.
    pub call: &'static str,
    /// The shape of its trees, and what else sets it apart.
    pub shape: String,
    /// Rows of one tree.
    pub rows: usize,
    /// Rows that are given to the call in all, or that it makes of a text.
    pub all_rows: usize,
    /// The library's time.
    pub library: Time,
    /// The time of the library's second build, where one is measured.
    pub before: Option<Time>,
    /// The reference's time over the same words.
    pub reference: Time,
    /// The time of a plain copy of as much as the call hands back.
    pub copy: Time,
}

impl Line {
    /// How often the library's time fits in the reference's.
    fn faster(&self) -> f64 {
        self.reference.median / self.library.median
    }

    /// How often the copy's time fits in the library's.
    fn copies(&self) -> f64 {
        self.library.median / self.copy.median
    }

    /// The library's time as a share of that of the second build.
    fn share(&self) -> Option<f64> {
        Some(self.library.median / self.before?.median)
    }

    fn per_row(&self) -> f64 {
        self.library.median / self.all_rows as f64
    }

    fn named(&self) -> String {
        format!(
            "{} {} {} {}",
            in_words(self.profile),
            self.call,
            self.shape,
            self.rows
        )
    }
}

fn in_words(profile: Profile) -> &'static str {
    match profile {
        Profile::Exact => "exact",
        Profile::Folded => "folded",
    }
}

/// Prints the head of a table.
pub fn head(profile: Profile, title: &str) {
    println!("\n### {title} ({})\n", in_words(profile));
    println!("| call | trees | rows | library us | reference us | copy us | reference / library | library / copy | ns a row | library / before |");
    println!("|---|---|--:|--:|--:|--:|--:|--:|--:|--:|");
}

/// Prints a line of a table.
pub fn show(line: &Line) {
    let micros = |time: Time| format!("{:.2}", time.median / 1000.0);
    println!(
        "| {} | {} | {} | {} | {} | {} | {:.1} | {:.1} | {:.1} | {} |",
        line.call,
        line.shape,
        line.rows,
        micros(line.library),
        micros(line.reference),
        micros(line.copy),
        line.faster(),
        line.copies(),
        line.per_row(),
        line.share()
            .map_or("".into(), |share| format!("{share:.2}"))
    );
}

/// Prints for each call, by its profile and rows, the least, the middle and the greatest share of its time before.
fn shares(lines: &[Line]) {
    println!("\n### Library / before: least, middle and greatest of the lines of a call\n");
    println!("| profile | call | rows | lines | least | middle | greatest |");
    println!("|---|---|--:|--:|--:|--:|--:|");
    let mut by_call: BTreeMap<_, Vec<f64>> = BTreeMap::new();
    for line in lines {
        let named = (in_words(line.profile), line.call, line.rows);
        by_call.entry(named).or_default().extend(line.share());
    }
    for ((profile, call, rows), mut shares) in by_call {
        shares.sort_by(f64::total_cmp);
        let (least, middle) = (shares[0], shares[shares.len() / 2]);
        let greatest = shares[shares.len() - 1];
        println!(
            "| {profile} | {call} | {rows} | {} | {least:.2} | {middle:.2} | {greatest:.2} |",
            shares.len()
        );
    }
}

/// Prints the line that is worst by a measure, with that measure and the goal for it.
fn goal<'a>(
    what: &str,
    met: impl Fn(f64) -> bool,
    measured: impl Iterator<Item = (String, f64)> + 'a,
    worse: impl Fn(f64, f64) -> bool,
) {
    let all: Vec<(String, f64)> = measured.collect();
    let missed = all.iter().filter(|one| !met(one.1)).count();
    let worst = all
        .iter()
        .reduce(|one, other| if worse(other.1, one.1) { other } else { one });
    let (name, value) = worst.expect("something was measured");
    let said = match missed {
        0 => "met".into(),
        _ => format!("missed by {missed} of {} lines", all.len()),
    };
    println!("- {what}: {said}; worst {value:.2} ({name})");
}

/// Prints what the lines say about the goals.
pub fn goals(lines: &[Line], pairs: &[Pair]) {
    let two_builds = lines.iter().any(|line| line.before.is_some());
    if two_builds {
        shares(lines);
    }
    println!("\n### Goals\n");
    goal(
        "no call is slower than the reference (reference / library at least 1)",
        |ratio| ratio >= 1.0,
        lines.iter().map(|line| (line.named(), line.faster())),
        small,
    );
    reconciling(lines);
    reading(lines);
    growing(lines);
    goal(
        "letter case ignored, reconcile of the same tables takes at most 1.6 times as long",
        |ratio| ratio <= 1.6,
        pairs
            .iter()
            .map(|pair| (pair.shape.clone(), pair.same_tables())),
        large,
    );
    goal(
        "and of tables in spellings of their own too",
        |ratio| ratio <= 1.6,
        pairs
            .iter()
            .map(|pair| (pair.shape.clone(), pair.own_spellings())),
        large,
    );
    if two_builds {
        let shared = |line: &Line| Some((line.named(), line.share()?));
        goal(
            "no call takes more than 1.15 times as long as before",
            |share| share <= 1.15,
            lines.iter().filter_map(shared),
            large,
        );
    }
    let spreads = lines.iter().map(|line| line.library.spread);
    println!(
        "\nThe library's quartiles are at most {:.0} % of the median apart.",
        100.0 * spreads.fold(0.0, f64::max)
    );
}

fn small(one: f64, other: f64) -> bool {
    one < other
}

fn large(one: f64, other: f64) -> bool {
    one > other
}

/// The goals for reconciling the largest trees.
fn reconciling(lines: &[Line]) {
    let reconciled = || {
        lines
            .iter()
            .filter(|line| line.call == "reconcile" && line.all_rows == 3 * 4096)
    };
    goal(
        "reconcile of three times 4,096 rows is five times faster than the reference",
        |ratio| ratio >= 5.0,
        reconciled().map(|line| (line.named(), line.faster())),
        small,
    );
    goal(
        "where every byte counts it takes at most four times a copy",
        |ratio| ratio <= 4.0,
        reconciled()
            .filter(|line| line.profile == Profile::Exact)
            .map(|line| (line.named(), line.copies())),
        large,
    );
}

/// The goals for reading files, in whatever order they stand.
fn reading(lines: &[Line]) {
    let files = |least: usize, most: usize| {
        lines.iter().filter(move |line| {
            let files = line.shape.contains("files") || line.shape.contains("bytes");
            line.call == "read" && files && (least..=most).contains(&line.rows)
        })
    };
    goal(
        "read of 128 rows of files or more is three times faster than the reference",
        |ratio| ratio >= 3.0,
        files(128, usize::MAX).map(|line| (line.named(), line.faster())),
        small,
    );
    goal(
        "and of 16 two and a half times",
        |ratio| ratio >= 2.5,
        files(16, 16).map(|line| (line.named(), line.faster())),
        small,
    );
}

/// The goal for what a row costs in a large tree.
fn growing(lines: &[Line]) {
    let grown = lines.iter().filter(|line| line.rows == 4096);
    let growth = grown.filter_map(|line| {
        let small = lines.iter().find(|other| {
            (other.profile, other.call, &other.shape, other.rows)
                == (line.profile, line.call, &line.shape, 256)
        })?;
        Some((line.named(), line.per_row() / small.per_row()))
    });
    goal(
        "a row of 4,096 costs at most one and a half times one of 256",
        |ratio| ratio <= 1.5,
        growth,
        large,
    );
}
