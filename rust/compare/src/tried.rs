//! The cases of a test, and what they came to.

use std::collections::BTreeMap;
use std::fmt::Debug;
use std::time::Instant;

use reference::generate::Random;
use reference::{Profile, PROFILES};

use crate::lent::{Lent, Mark};

/// A test's cases so far.
#[derive(Debug)]
pub struct Tried {
    name: &'static str,
    began: Instant,
    /// How often each thing came in each profile, calls and answers among them.
    seen: BTreeMap<String, [u64; 2]>,
}

/// One case: random inputs of a profile from a seed of its own.
#[derive(Debug)]
pub struct Case<'a> {
    /// The profile that its calls are made in.
    pub profile: Profile,
    /// The case's random numbers.
    pub rng: Random,
    seed: u64,
    tried: &'a mut Tried,
}

impl Tried {
    /// No case yet of the test of this name.
    pub fn new(name: &'static str) -> Self {
        Tried {
            name,
            began: Instant::now(),
            seen: BTreeMap::new(),
        }
    }

    /// Runs so many cases, from the first seed on, in one profile and the other by turns.
    pub fn cases(&mut self, first: u64, count: u64, mut case: impl FnMut(&mut Case)) {
        for seed in first..first + count {
            let rng = Random::new(seed);
            case(&mut Case {
                profile: PROFILES[(seed - first) as usize % 2],
                rng,
                seed,
                tried: self,
            });
        }
    }

    /// Ends the test: tells what came where case counts and where it is ignored, and fails unless each
    /// of the first came at least so often in either profile, and each of the others where case is
    /// ignored.
    ///
    /// # Panics
    /// If one of them did not.
    pub fn end(self, either: &[(&str, u64)], folded: &[(&str, u64)]) {
        let all: Vec<String> = self
            .seen
            .iter()
            .map(|(what, [exact, folded])| format!("{what}: {exact} + {folded}"))
            .collect();
        let seconds = self.began.elapsed().as_secs_f32();
        println!("{}, {seconds:.1} s: {}", self.name, all.join(", "));
        let came = |what: &str, profile| {
            let counts = self.seen.get(what);
            counts.map_or(0, |counts| counts[profile as usize])
        };
        for (what, due) in either {
            let least = came(what, Profile::Exact).min(came(what, Profile::Folded));
            self.at_least(what, least, *due);
        }
        for (what, due) in folded {
            self.at_least(what, came(what, Profile::Folded), *due);
        }
    }

    fn at_least(&self, what: &str, came: u64, due: u64) {
        let name = self.name;
        assert!(came >= due, "{name}: '{what}' came {came} times, not {due}");
    }
}

impl Case<'_> {
    /// Counts something that came.
    pub fn saw(&mut self, what: &str) {
        if !self.tried.seen.contains_key(what) {
            self.tried.seen.insert(what.to_string(), [0; 2]);
        }
        if let Some(counts) = self.tried.seen.get_mut(what) {
            counts[self.profile as usize] += 1;
        }
    }

    /// The profile as a word for the library: any but 0 ignores letter case.
    pub fn word(&mut self) -> u32 {
        match self.profile {
            Profile::Exact => 0,
            Profile::Folded if self.rng.one_in(8) => self.rng.word().max(1),
            Profile::Folded => 1,
        }
    }

    /// Fails the test, naming the seed.
    ///
    /// # Panics
    /// Always.
    pub fn fail(&self, what: &str) -> ! {
        let (name, seed, profile) = (self.tried.name, self.seed, self.profile);
        panic!("{name}, seed {seed}, {profile:?}: {what}")
    }

    /// Fails unless both are the same.
    pub fn same<T: PartialEq + Debug>(&self, what: &str, library: &[T], reference: &[T]) {
        if library == reference {
            return;
        }
        let both = library.iter().zip(reference);
        let place = both.take_while(|(one, other)| one == other).count();
        self.fail(&format!(
            "{what}: at {place} the library has {:?}, the reference {:?}; lengths {} and {}",
            library.get(place),
            reference.get(place),
            library.len(),
            reference.len()
        ));
    }

    /// Fails unless a buffer holds the same and nothing around it was touched.
    pub fn same_lent<T: Mark>(&self, what: &str, library: &Lent<T>, reference: &[T]) {
        self.same(what, library.inside(), reference);
        if let Some(place) = library.touched_outside() {
            self.fail(&format!("{what}: place {place} is outside and was touched"));
        }
    }
}
