//! The program's arguments: none, `--ignore-case` alone, and anything else.

use std::ffi::{OsStr, OsString};
use std::os::unix::ffi::OsStrExt;
use syncplan_tests::Profile::{Exact, Folded};
use syncplan_tests::{texts, Files, Folder, IGNORE_CASE};

const USAGE: &str = "usage: syncplan [--ignore-case]\n";

/// Two spellings of one folder, which are two folders where case counts.
fn files() -> Files {
    let lone = ". type=dir\n";
    texts([lone, ". type=dir\nDay @1\n", ". type=dir\nday @1\n"])
}

/// With these arguments there is the usage on standard error and nothing else.
fn usage(folder: &Folder, arguments: &[&OsStr]) {
    let output = folder.command().args(arguments).output();
    let output = output.expect("the program starts");
    let said = String::from_utf8_lossy(&output.stderr);
    assert_eq!(said, USAGE, "{arguments:?}");
    let printed = output.stdout.escape_ascii();
    assert!(output.stdout.is_empty(), "{arguments:?}: {printed}");
    assert!(output.status.code().is_some(), "{}", output.status);
}

#[test]
fn no_argument_and_the_one() {
    let folder = Folder::new();
    folder.put_all(&files());
    folder.due(Exact, "> ./Day\n< ./day\n= 1 1 0\n");
    folder.due(Folded, "= 0 0 0\n");
}

#[test]
fn any_other_argument() {
    let folder = Folder::new();
    folder.put_all(&files());
    for other in [
        "",
        " ",
        "-",
        "--",
        "-i",
        "--help",
        "--ignore-cas",
        "--ignore-case ",
        " --ignore-case",
        "--ignore-cases",
        "--ignore-case=",
        "--ignore-case\n",
        "-ignore-case",
        "ignore-case",
        "--Ignore-case",
        "--IGNORE-CASE",
        "--ignore_case",
        ".",
        "archive.mtree",
    ] {
        usage(&folder, &[OsStr::new(other)]);
    }
    usage(&folder, &[OsStr::from_bytes(b"\xff\x80")]);
    usage(&folder, &[OsStr::from_bytes(b"--ignore-case\xff")]);
    for length in [12, 13, 14, 255, 256, 257, 4096, 65_536] {
        usage(&folder, &[&OsString::from("-".repeat(length))]);
        let long = format!("{IGNORE_CASE}{}", "e".repeat(length));
        usage(&folder, &[&OsString::from(long)]);
    }
}

#[test]
fn two_arguments_and_more() {
    let folder = Folder::new();
    folder.put_all(&files());
    let arguments = [IGNORE_CASE, "", "x", "--"].map(OsStr::new);
    for one in arguments {
        for other in arguments {
            usage(&folder, &[one, other]);
            usage(&folder, &[one, other, arguments[0]]);
        }
    }
    usage(&folder, &[arguments[0]; 200]);
}

/// Whatever the files are: also where there are none.
#[test]
fn without_files() {
    let folder = Folder::new();
    usage(&folder, &[OsStr::new("x")]);
    usage(&folder, &[OsStr::new(IGNORE_CASE); 2]);
    folder.due_in_both("refused archive 6 0\n");
}
