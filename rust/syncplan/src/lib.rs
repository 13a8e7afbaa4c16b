//! Runs the built program syncplan in folders of its own, in both profiles, and looks at all that it
//! prints.
//!
//! The program is target/bin/syncplan of the repository, which `tools/build syncplan` writes. The
//! variable SYNCPLAN names another one, and SYNCPLAN_RUNNER an emulator to run it by, where this is not
//! its processor.
#![forbid(unsafe_code)]
#![deny(missing_docs)]

mod shape;

pub use reference::Profile;
pub use shape::check_shape;

use reference::PROFILES;
use std::ffi::OsString;
use std::path::{Path, PathBuf};
use std::process::{Command, Output, Stdio};
use std::sync::atomic::{AtomicUsize, Ordering};
use std::{env, fs, process};

/// The most bytes that a file may have.
pub const MOST_BYTES: usize = 16_384;
/// The most rows that a file may have.
pub const MOST_ROWS: usize = 128;
/// The three files by the names that the program gives them.
pub const SIDES: [&str; 3] = ["archive", "left", "right"];

/// What stands in the place of each of the three files; nothing if there is no file.
pub type Files = [Option<Vec<u8>>; 3];

/// The argument with which letter case is ignored.
pub const IGNORE_CASE: &str = "--ignore-case";

/// The program's arguments in a profile.
pub fn arguments(profile: Profile) -> &'static [&'static str] {
    match profile {
        Profile::Exact => &[],
        Profile::Folded => &[IGNORE_CASE],
    }
}

/// The program that is tried.
///
/// # Panics
/// If it is not there.
pub fn program() -> PathBuf {
    let built = || Path::new(env!("CARGO_MANIFEST_DIR")).join("../../target/bin/syncplan");
    let given = env::var_os("SYNCPLAN").map_or_else(built, PathBuf::from);
    let missing = |_| -> PathBuf {
        panic!(
            "{} is missing: run `tools/build syncplan` first, or name the program in SYNCPLAN",
            given.display()
        )
    };
    fs::canonicalize(&given).unwrap_or_else(missing)
}

/// A folder to run the program in, removed in the end.
pub struct Folder {
    path: PathBuf,
    program: PathBuf,
}

impl Folder {
    /// A new empty folder.
    #[allow(clippy::new_without_default)]
    pub fn new() -> Self {
        static NEXT: AtomicUsize = AtomicUsize::new(0);
        let number = NEXT.fetch_add(1, Ordering::Relaxed);
        let program = program();
        let path = env::temp_dir().join(format!("syncplan-{}-{number}", process::id()));
        fs::create_dir(&path).expect("a folder to run in");
        Folder { path, program }
    }

    /// Where the folder is.
    pub fn path(&self) -> &Path {
        &self.path
    }

    /// Where a side's file is or would be.
    pub fn file(&self, side: usize) -> PathBuf {
        self.path.join(format!("{}.mtree", SIDES[side]))
    }

    /// Makes a side's file anew, or takes it away. An old one goes first: some file systems bring one
    /// that is written over to the disk at once, which takes longer than a run.
    pub fn put(&self, side: usize, text: Option<&[u8]>) {
        let file = self.file(side);
        if file.exists() {
            fs::remove_file(&file).expect("a file to take away");
        }
        if let Some(text) = text {
            fs::write(file, text).expect("a file in the folder");
        }
    }

    /// Makes all three files.
    pub fn put_all(&self, files: &Files) {
        for (side, text) in files.iter().enumerate() {
            self.put(side, text.as_deref());
        }
    }

    /// A run of the program that is yet to be started.
    pub fn command(&self) -> Command {
        self.command_of(&self.program)
    }

    /// A run of another program in the same folder.
    pub fn command_of(&self, program: &Path) -> Command {
        let mut words: Vec<OsString> = env::var_os("SYNCPLAN_RUNNER").into_iter().collect();
        words.push(program.into());
        let mut command = Command::new(&words[0]);
        command.args(&words[1..]);
        command.current_dir(&self.path).stdin(Stdio::null());
        command
    }

    /// A run of the program with so many kilobytes of stack. An emulator makes the stack of what it
    /// runs itself: of its own variable's size.
    pub fn command_with_stack(&self, kilobytes: usize) -> Command {
        let usual = self.command();
        let mut command = Command::new("/bin/sh");
        command
            .args(["-c", "ulimit -s \"$0\" && exec \"$@\""])
            .arg(kilobytes.to_string())
            .arg(usual.get_program())
            .args(usual.get_args())
            .env("QEMU_STACK_SIZE", (kilobytes * 1024).to_string());
        command.current_dir(&self.path).stdin(Stdio::null());
        command
    }

    /// Runs the program in a profile, which must print just what is due.
    pub fn due(&self, profile: Profile, due: &str) {
        let mut command = self.command();
        command.args(arguments(profile));
        check(&command.output().expect("the program starts"), due);
    }

    /// Runs the program in both profiles, which must print the same.
    pub fn due_in_both(&self, due: &str) {
        PROFILES.iter().for_each(|profile| self.due(*profile, due));
    }
}

impl Drop for Folder {
    fn drop(&mut self) {
        // A failure to remove it would hide the failure of a test.
        let _ = fs::remove_dir_all(&self.path);
    }
}

/// What a run printed must be what is due: every byte, no more, nothing on standard error.
pub fn check(output: &Output, due: &str) {
    let printed = &output.stdout;
    let said = output.stderr.escape_ascii();
    assert!(output.stderr.is_empty(), "on standard error: {said}");
    assert_eq!(output.status.code(), Some(0), "{}", output.status);
    if printed != due.as_bytes() {
        let alike = printed.iter().zip(due.as_bytes());
        let at = alike.take_while(|(one, other)| one == other).count();
        panic!(
            "differs at byte {at}\nprinted: {}\n    due: {}",
            printed.escape_ascii(),
            due.as_bytes().escape_ascii()
        );
    }
    check_shape(due);
}

/// Runs the program on three files in a folder of their own, and compares what it prints.
pub fn due(profile: Profile, files: &Files, due: &str) {
    let folder = Folder::new();
    folder.put_all(files);
    folder.due(profile, due);
}

/// The same in both profiles, for files in which letter case makes no difference.
pub fn due_in_both(files: &Files, due: &str) {
    let folder = Folder::new();
    folder.put_all(files);
    folder.due_in_both(due);
}

/// A listing written short: `@` and a digit stand for the words of a file of that content.
pub fn text(short: &str) -> Vec<u8> {
    let mut parts = short.split('@');
    let mut text = parts.next().expect("a first part").to_string();
    for part in parts {
        match part.chars().next().filter(char::is_ascii_digit) {
            Some(content) => {
                let digest = content.to_string().repeat(64);
                text.push_str(&format!("type=file size={content} sha256digest={digest}"));
                text.push_str(&part[1..]);
            }
            None => {
                text.push('@');
                text.push_str(part);
            }
        }
    }
    text.into_bytes()
}

/// Three listings written short.
pub fn texts(short: [&str; 3]) -> Files {
    short.map(|short| Some(text(short)))
}
