//! Names as the plan spells them, whichever way the files spell them, where every byte counts.

use syncplan_tests::Profile::Exact;
use syncplan_tests::{due, text, texts, Files};

const LONE: &str = ". type=dir\n";

/// A root, and the words given as first words of files.
fn listing(words: &[String]) -> Vec<u8> {
    let lines: String = words.iter().map(|word| format!("{word} @1\n")).collect();
    text(&format!("{LONE}{lines}"))
}

/// Only the left has the given.
fn on_the_left(given: Vec<u8>) -> Files {
    [text(LONE), given, text(LONE)].map(Some)
}

#[test]
fn names_that_need_escapes() {
    let left = ". type=dir\n\\377 @1\nx=y @1\na\\040b @1\n\\043x @1\n\\134057 @1\n~ @1\n\\012 @1\n\\001 @1\n\\011\\040 @1\n";
    due(
        Exact,
        &texts([LONE, left, LONE]),
        concat!(
            "> ./\\001\n",
            "> ./\\011\\040\n",
            "> ./\\012\n",
            "> ./\\043x\n",
            "> ./\\134057\n",
            "> ./a\\040b\n",
            "> ./x\\075y\n",
            "> ./\\176\n",
            "> ./\\377\n",
            "= 0 9 0\n"
        ),
    );
}

#[test]
fn names_with_dots() {
    let right = ". type=dir\n... @1\n.a @1\n..a @1\na. @1\n.\\056. @2\n";
    due(Exact, &texts([LONE, LONE, right]), "refused right 13 6\n");
    let right = ". type=dir\n... @1\n.a @1\n..a @1\na. @1\n-_. @1\n";
    due(
        Exact,
        &texts([LONE, LONE, right]),
        "< ./-_.\n< ./...\n< ./..a\n< ./.a\n< ./a.\n= 5 0 0\n",
    );
}

/// Escaped names on the way, and the same name beneath itself.
#[test]
fn paths_of_escaped_names() {
    let archive = ". type=dir\n\\040 type=dir\n\\040 type=dir\n\\043 @1\n";
    let left = ". type=dir\n\\040 type=dir\n\\040 type=dir\n\\043 @1\n! @1\n";
    let right = ". type=dir\n\\040 type=dir\n\\040 type=dir\n\\043 @2\n..\n\\200 type=dir\n";
    due(
        Exact,
        &texts([archive, left, right]),
        concat!(
            "> ./\\040/\\040/\\041\n",
            "< ./\\040/\\040/\\043\n",
            "< ./\\040/\\200\n",
            "= 2 1 0\n"
        ),
    );
}

/// Every byte that a name may hold, as a name of its own and beside a letter.
#[test]
fn every_byte() {
    let plain = |byte: &u8| byte.is_ascii_alphanumeric() || b"._-".contains(byte);
    let spelled = |byte: &u8| match plain(byte) {
        true => char::from(*byte).to_string(),
        false => format!("\\{byte:03o}"),
    };
    for range in [1..=100, 101..=200, 201..=255u8] {
        let all: Vec<u8> = range.filter(|byte| !b"./".contains(byte)).collect();
        for before in ["", "a", "."] {
            let escaped = |byte: &u8| format!("{before}\\{byte:03o}");
            let words: Vec<String> = all.iter().map(escaped).collect();
            let line = |byte: &u8| format!("> ./{before}{}\n", spelled(byte));
            let lines: String = all.iter().map(line).collect();
            let printed = format!("{lines}= 0 {} 0\n", all.len());
            due(Exact, &on_the_left(listing(&words)), &printed);
        }
    }
}

/// A byte that may stand plain means the same as its escape.
#[test]
fn plain_or_escaped() {
    let all = (33..=126u8).filter(|byte| !b"#\\/*?[.".contains(byte));
    let (plain, escaped): (Vec<_>, Vec<_>) = all
        .map(|byte| (char::from(byte).to_string(), format!("\\{byte:03o}")))
        .unzip();
    let files = [&plain, &escaped, &plain].map(|words| Some(listing(words)));
    due(Exact, &files, "= 0 0 0\n");
}

#[test]
fn names_of_32_bytes() {
    let word = |byte: u8, count: usize| format!("\\{byte:03o}").repeat(count);
    for byte in [1, 32, 35, 42, 92, 127, 128, 255] {
        let long = word(byte, 32);
        let printed = format!("> ./{long}\n= 0 1 0\n");
        due(
            Exact,
            &on_the_left(listing(std::slice::from_ref(&long))),
            &printed,
        );
        // A name that is a part of another comes before it.
        let both = [long.clone(), word(byte, 31)];
        let printed = format!("> ./{}\n> ./{long}\n= 0 2 0\n", both[1]);
        due(Exact, &on_the_left(listing(&both)), &printed);
        let over = listing(&[word(byte, 33)]);
        due(Exact, &on_the_left(over), "refused left 8 2\n");
    }
    let letters = word(b'a', 32);
    let printed = format!("> ./{}\n= 0 1 0\n", "a".repeat(32));
    due(Exact, &on_the_left(listing(&[letters])), &printed);
}

/// Bytes are compared without a sign, word by word and within a word.
#[test]
fn order_of_names() {
    let words = [
        "b",
        "aaaaa",
        "aaaa",
        "\\377",
        "\\200",
        "\\177",
        "aaaa\\377",
        "aaab",
        "Z",
        "0",
    ];
    let words = words.map(String::from);
    due(
        Exact,
        &on_the_left(listing(&words)),
        concat!(
            "> ./0\n> ./Z\n> ./aaaa\n> ./aaaaa\n> ./aaaa\\377\n> ./aaab\n> ./b\n",
            "> ./\\177\n> ./\\200\n> ./\\377\n= 0 10 0\n"
        ),
    );
}
