//! How long each call takes in both profiles, for trees of three shapes and sizes: the proved library,
//! the reference over the same words, and a plain copy of as much as the call hands back. With the
//! argument `wall` the clock on the wall measures, else the thread's own. `before PROGRAM`, last, has this program, linked with
//! another build of the library, measured beside it.
#![deny(missing_docs)]

mod beside;
mod calls;
mod days;
mod inputs;
mod report;
mod second;
mod timing;

use inputs::{Kind, Order};
use kantifero::MOST_ROWS;
use reference::generate::{self, Random, Shape, CHANGES, SHAPES};
use reference::{Profile, PROFILES};
use report::Line;
use timing::Clock;

/// The rows of one tree.
const SIZES: [usize; 3] = [16, 256, 4096];

fn main() {
    let words: Vec<String> = std::env::args().skip(1).collect();
    let wall = words.iter().any(|word| word == "wall");
    timing::measure_by(if wall { Clock::Wall } else { Clock::Thread });
    match &words[..] {
        [first, ..] if first == "second" => second::be(),
        [clock @ .., word, program] if word == "before" => second::start(program, clock),
        _ => {}
    }
    println!("clock: {}", if wall { "wall" } else { "thread" });
    let mut bench = Bench {
        rng: Random::new(2020),
        lines: Vec::new(),
    };
    for profile in PROFILES {
        bench.tables(profile);
        bench.texts(profile);
        bench.orders(profile);
    }
    let pairs = beside::measured(&mut bench.rng);
    report::goals(&bench.lines, &pairs);
}

/// The lines measured so far.
struct Bench {
    rng: Random,
    lines: Vec<Line>,
}

impl Bench {
    /// Shows a line and keeps it.
    fn take(&mut self, line: Line) {
        report::show(&line);
        self.lines.push(line);
    }

    /// The calls that go from tables to tables.
    fn tables(&mut self, profile: Profile) {
        report::head(profile, "Reconcile: rows of each of three trees");
        for shape in SHAPES {
            for change in CHANGES {
                for rows in SIZES {
                    let trees = generate::changed(&mut self.rng, profile, shape, rows, change);
                    let named = named(shape, &format!("{change:?}").to_lowercase());
                    self.take(calls::reconcile(profile, named, trees.tables()));
                }
            }
        }
        report::head(profile, "Reconcile: days whose names begin alike");
        let (root, folder) = (days::in_the_root(profile), days::in_a_folder(profile));
        for (differs, trees) in root.into_iter().chain(folder) {
            let tables = trees.each_ref().map(reference::table);
            self.take(calls::reconcile(profile, differs.into(), tables));
        }
        report::head(profile, "Move, rows to carry and check");
        for shape in SHAPES {
            for rows in SIZES {
                let line = calls::make_move(&mut self.rng, profile, shape, rows);
                self.take(line);
            }
            for rows in SIZES {
                let line = calls::carried(&mut self.rng, profile, shape, rows);
                self.take(line);
            }
            for rows in SIZES {
                let line = calls::check(&mut self.rng, profile, shape, rows);
                self.take(line);
            }
        }
    }

    /// Reading and writing, by the tree and by the bytes of the text.
    fn texts(&mut self, profile: Profile) {
        let title = "Read and write: files up to 256 rows, folders alone up to 4,096";
        report::head(profile, title);
        for shape in SHAPES {
            for rows in SIZES.into_iter().filter(|rows| *rows < MOST_ROWS) {
                let tree = generate::shaped(&mut self.rng, profile, shape, rows);
                self.text(profile, named(shape, "files"), &tree);
            }
            for rows in SIZES {
                let tree = generate::shaped(&mut self.rng, profile, shape, rows);
                let alone = inputs::folders_alone(profile, &tree);
                self.text(profile, named(shape, "folders"), &alone);
            }
        }
        report::head(profile, "Read by the bytes of the text: files in order");
        for bytes in [16_384, 32_768, 65_536] {
            let (text, rows) = inputs::of_bytes(&mut self.rng, profile, bytes);
            let named = format!("{bytes} bytes");
            self.take(calls::read(profile, named, &text, rows));
        }
    }

    /// A tree's text, read and written.
    fn text(&mut self, profile: Profile, named: String, tree: &reference::Node) {
        let table = reference::table(tree);
        let text = inputs::text_of(profile, &table);
        self.take(calls::read(profile, named.clone(), &text, tree.rows()));
        self.take(calls::write(profile, named, &table, text.len()));
    }

    /// Reading by the order of the entries.
    fn orders(&mut self, profile: Profile) {
        report::head(profile, "Read by the order of the entries");
        for kind in [Kind::Files, Kind::Folders] {
            let most = match kind {
                Kind::Files => inputs::most_files(),
                Kind::Folders => MOST_ROWS,
            };
            for order in [Order::Ascending, Order::Descending, Order::Shuffled] {
                for rows in [128, 512, most] {
                    let text = inputs::ordered(&mut self.rng, profile, kind, rows, order);
                    let named = format!("{kind:?} {order:?}").to_lowercase();
                    self.take(calls::read(profile, named, &text, rows));
                }
            }
        }
    }
}

fn named(shape: Shape, more: &str) -> String {
    format!("{shape:?} {more}").to_lowercase()
}
