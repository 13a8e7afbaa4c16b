//! Medians of repeated runs.

use std::sync::OnceLock;
use std::time::{Duration, Instant};

use crate::second;

/// The clock that measures.
#[derive(Clone, Copy, Debug, PartialEq, Eq)]
pub enum Clock {
    /// The one on the wall, for a machine that does nothing else.
    Wall,
    /// That of this thread, which stands while other programs have the core: beside them a clock on
    /// the wall would measure their work too.
    Thread,
}

/// The clock, once it has been chosen.
static CLOCK: OnceLock<Clock> = OnceLock::new();

/// Chooses the clock; the first choice counts.
pub fn measure_by(clock: Clock) {
    CLOCK.get_or_init(|| clock);
}

/// Samples of each call, unless they take too long.
const SAMPLES: usize = 41;

/// Samples of each call at least.
const FEW: usize = 7;

/// How long a sample takes at least: short calls are repeated within it.
const SAMPLE: Duration = Duration::from_micros(300);

/// How many nanoseconds the samples of a call may take together before there are no more than a few.
const ENOUGH: f64 = 400e6;

/// The time of one call.
#[derive(Clone, Copy, Debug)]
pub struct Time {
    /// The median of the samples, in nanoseconds.
    pub median: f64,
    /// The distance of the quartiles as a share of the median.
    pub spread: f64,
}

impl Time {
    /// Where nothing is measured.
    const NONE: Time = Time {
        median: 0.0,
        spread: 0.0,
    };
}

/// The times of some calls, of which the first is the library's, and its time in the second build where there is one. Their
/// samples take turns, so that what slows the machine for a while slows all of them.
pub fn times<const N: usize>(mut calls: [&mut dyn FnMut(); N]) -> ([Time; N], Option<Time>) {
    if second::is_this() {
        calls.iter_mut().for_each(|call| call());
        let repeats = repeats(calls[0]);
        second::answer(|| sample_of(calls[0], repeats));
        return ([Time::NONE; N], None);
    }
    let repeats = calls.each_mut().map(|call| repeats(call));
    let mut samples = [(); N].map(|()| Samples::default());
    let mut before = Samples::default();
    for round in 0..SAMPLES {
        for (i, call) in calls.iter_mut().enumerate() {
            samples[i].take(round, || Some(sample_of(call, repeats[i])));
        }
        before.take(round, second::sample);
    }
    second::done();
    (
        samples.map(|all| all.time().expect("it was called")),
        before.time(),
    )
}

/// The samples of one call.
#[derive(Default)]
struct Samples {
    all: Vec<f64>,
    spent: f64,
}

impl Samples {
    /// Takes one more, unless there are enough: nanoseconds of one call, and of all calls of the sample.
    fn take(&mut self, round: usize, sample: impl FnOnce() -> Option<Sample>) {
        if round < FEW || self.spent < ENOUGH {
            if let Some(taken) = sample() {
                self.spent += taken.all;
                self.all.push(taken.one);
            }
        }
    }

    /// Their median and spread, if there are any.
    fn time(mut self) -> Option<Time> {
        self.all.sort_by(f64::total_cmp);
        let median = *self.all.get(self.all.len() / 2)?;
        let quartiles = self.all[3 * self.all.len() / 4] - self.all[self.all.len() / 4];
        Some(Time {
            median,
            spread: quartiles / median,
        })
    }
}

/// The nanoseconds of one call in a sample, and of the whole sample.
#[derive(Clone, Copy, Debug)]
pub struct Sample {
    /// Of one call.
    pub one: f64,
    /// Of all of them.
    pub all: f64,
}

/// A sample of so many calls, after one that is not measured: so the caches are as warm for the first as for the others.
fn sample_of(call: &mut dyn FnMut(), repeats: usize) -> Sample {
    call();
    let all = sample(call, repeats).as_nanos() as f64;
    Sample {
        one: all / repeats as f64,
        all,
    }
}

/// How often a call is repeated within a sample.
fn repeats(call: &mut dyn FnMut()) -> usize {
    call();
    let mut repeats = 1;
    while sample(call, repeats) < SAMPLE {
        repeats *= 2;
    }
    repeats
}

/// How long so many runs of a call take.
fn sample(call: &mut dyn FnMut(), repeats: usize) -> Duration {
    match CLOCK.get_or_init(|| Clock::Thread) {
        Clock::Wall => {
            let began = Instant::now();
            run(call, repeats);
            began.elapsed()
        }
        Clock::Thread => {
            let began = thread_time();
            run(call, repeats);
            thread_time() - began
        }
    }
}

fn run(call: &mut dyn FnMut(), repeats: usize) {
    for _ in 0..repeats {
        call();
    }
}

/// The time that this thread has had a core for.
fn thread_time() -> Duration {
    use std::ffi::{c_int, c_long};

    #[repr(C)]
    struct Timespec {
        seconds: c_long,
        nanos: c_long,
    }
    const CLOCK_THREAD_CPUTIME_ID: c_int = 3;
    extern "C" {
        fn clock_gettime(clock: c_int, time: *mut Timespec) -> c_int;
    }
    let mut time = Timespec {
        seconds: 0,
        nanos: 0,
    };
    // SAFETY: the pointer is to a value laid out as Linux has it, which the call fills.
    let failed = unsafe { clock_gettime(CLOCK_THREAD_CPUTIME_ID, &mut time) };
    assert_eq!(failed, 0, "this thread has a clock");
    Duration::new(time.seconds as u64, time.nanos as u32)
}
