//! What every plan looks like, whatever the files say.

use crate::SIDES;

/// The text must have the shape of something that syncplan may print: lines that end in LF, of
/// which a refusal is the only one, and a plan's last counts those before it.
pub fn check_shape(printed: &str) {
    let body = printed
        .strip_suffix('\n')
        .expect("the last line ends in LF");
    let mut lines: Vec<&str> = body.split('\n').collect();
    let last = lines.pop().expect("there is a line");
    let words: Vec<&str> = last.split(' ').collect();
    match words[..] {
        ["refused", side, number, place] => {
            assert!(lines.is_empty(), "a refusal stands alone");
            assert!(SIDES.contains(&side), "{last}");
            assert!(matches!(decimal(number), 3 | 6..=14), "{last}");
            let no_line = matches!(decimal(number), 6 | 12);
            assert_eq!(no_line, decimal(place) == 0, "{last}");
        }
        ["=", left, right, clash] => {
            for (mark, count) in [("<", left), (">", right), ("!", clash)] {
                let listed = lines.iter().filter(|line| line.starts_with(mark)).count();
                assert_eq!(decimal(count), listed, "{mark} in {last}");
            }
            lines.iter().for_each(|line| check_line(line));
        }
        _ => panic!("no last line: {last:?}"),
    }
}

/// A number without leading zeros.
fn decimal(word: &str) -> usize {
    let number: usize = word.parse().expect("a number");
    assert_eq!(number.to_string(), word);
    number
}

/// The line of a list entry.
fn check_line(line: &str) {
    let (mark, path) = line.split_at(1);
    assert!(["<", ">", "!"].contains(&mark), "{line:?}");
    let names = path.strip_prefix(" ./").expect("a path");
    assert!(names.split('/').count() <= 16, "{line:?}");
    for name in names.split('/') {
        let bytes = check_name(name.as_bytes());
        assert!((1..=32).contains(&bytes), "{line:?}");
        assert!(name != "." && name != "..", "{line:?}");
    }
}

/// The bytes of a name, which stand plain or as three octal digits after a backslash.
fn check_name(mut name: &[u8]) -> usize {
    let mut bytes = 0;
    while let Some(first) = name.first() {
        let plain = first.is_ascii_alphanumeric() || b"._-".contains(first);
        if !plain {
            let digits = name.get(1..4).expect("three digits");
            assert_eq!(*first, b'\\');
            assert!(digits.iter().all(|digit| (b'0'..=b'7').contains(digit)));
        }
        name = &name[if plain { 1 } else { 4 }..];
        bytes += 1;
    }
    bytes
}
