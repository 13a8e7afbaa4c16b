//! A second build of the library beside the first: this program, linked with that build, in a process of its own. It makes the
//! same inputs from the same seed, and takes a sample of its library's call whenever the first asks for one.

use std::io::{self, BufRead, BufReader, Lines, Write};
use std::process::{ChildStdin, ChildStdout, Command, Stdio};
use std::sync::{Mutex, OnceLock};

use crate::timing::Sample;

/// What the second process writes before a sample's two numbers; its tables have no line that begins so.
const SAMPLE: &str = "sample ";

/// The line that asks for a sample.
const MORE: &str = "more";

/// The line that ends the samples of a call.
const DONE: &str = "done";

/// The other process, as the first sees it.
struct Other {
    asks: ChildStdin,
    answers: Lines<BufReader<ChildStdout>>,
}

/// The second process, once it has been started.
static OTHER: OnceLock<Mutex<Other>> = OnceLock::new();

/// Set where this process is the second.
static THIS: OnceLock<()> = OnceLock::new();

/// Says that this process is the second.
pub fn be() {
    THIS.get_or_init(|| ());
}

/// Whether it is.
pub fn is_this() -> bool {
    THIS.get().is_some()
}

/// Starts the second process, whose program is at a path, with the words that set the clock.
pub fn start(program: &str, words: &[String]) {
    let mut child = Command::new(program)
        .arg("second")
        .args(words)
        .stdin(Stdio::piped())
        .stdout(Stdio::piped())
        .spawn()
        .expect("the second build's program starts");
    let asks = child.stdin.take().expect("it is piped");
    let answers = BufReader::new(child.stdout.take().expect("it is piped")).lines();
    OTHER.get_or_init(|| Mutex::new(Other { asks, answers }));
}

/// A sample from the second process, where there is one.
pub fn sample() -> Option<Sample> {
    let mut other = OTHER.get()?.lock().expect("one thread");
    writeln!(other.asks, "{MORE}").expect("the second process listens");
    loop {
        let line = other.answers.next().expect("it answers").expect("in text");
        if let Some(numbers) = line.strip_prefix(SAMPLE) {
            let mut numbers = numbers.split(' ').map(|number| number.parse::<f64>());
            let mut next = || numbers.next()?.ok();
            return Some(Sample {
                one: next().expect("a number"),
                all: next().expect("a number"),
            });
        }
    }
}

/// Tells the second process that the samples of a call are done.
pub fn done() {
    if let Some(other) = OTHER.get() {
        let asks = &mut other.lock().expect("one thread").asks;
        writeln!(asks, "{DONE}").expect("the second process listens");
    }
}

/// Takes the samples that the first process asks for.
pub fn answer(mut sample: impl FnMut() -> Sample) {
    for line in io::stdin().lines() {
        if line.expect("text") == DONE {
            return;
        }
        let Sample { one, all } = sample();
        println!("{SAMPLE}{one} {all}");
    }
}
