//! Words and lines of a listing, with random blanks and spellings.

use super::Random;

/// Words with random blanks around them, and a line end.
pub(super) fn spaced(rng: &mut Random, calm: usize, first: &[u8], rest: &[Vec<u8>]) -> Vec<u8> {
    let mut line = gap(rng, calm, true);
    line.extend(first);
    for word in rest {
        line.extend(gap(rng, calm, false));
        line.extend(word);
    }
    line.extend(gap(rng, calm, true));
    line.push(b'\n');
    line
}

/// Blanks: a single space unless something odd comes, or nothing where that is allowed.
pub(super) fn gap(rng: &mut Random, calm: usize, may_be_empty: bool) -> Vec<u8> {
    let mut blanks = Vec::new();
    if !rng.one_in(calm) {
        return if may_be_empty { blanks } else { vec![b' '] };
    }
    for _ in 0..=rng.below(3) {
        let kinds: [&[u8]; 4] = [b" ", b"\t", b"  ", b"\\\n"];
        blanks.extend_from_slice(rng.pick(&kinds));
    }
    blanks
}

/// A comment with any bytes.
pub(super) fn comment(rng: &mut Random, calm: usize) -> Vec<u8> {
    let mut line = gap(rng, calm, true);
    line.push(b'#');
    for _ in 0..rng.below(12) {
        line.push(
            Some(rng.byte())
                .filter(|&byte| byte != b'\n')
                .unwrap_or(b'\\'),
        );
    }
    if rng.one_in(3) {
        line.push(b'\\');
    }
    line.push(b'\n');
    line
}

/// The word for a folder's or a file's type.
pub(super) fn type_word(dir: bool) -> Vec<u8> {
    if dir {
        b"type=dir" as &[u8]
    } else {
        b"type=file"
    }
    .to_vec()
}

/// A file's size, with leading zeros at times.
pub(super) fn size_word(rng: &mut Random, size: u64) -> Vec<u8> {
    let width = if rng.one_in(3) { rng.below(21) } else { 0 };
    format!("size={size:0width$}").into_bytes()
}

/// A file's digest, its letters in either case.
pub(super) fn digest_word(rng: &mut Random, digest: &[u32; 8]) -> Vec<u8> {
    let mut hex: Vec<u8> = digest
        .iter()
        .flat_map(|word| format!("{word:08x}").into_bytes())
        .collect();
    let upper = rng.below(3);
    for digit in &mut hex {
        if upper == 1 || (upper == 2 && rng.one_in(2)) {
            digit.make_ascii_uppercase();
        }
    }
    [b"sha256digest=".to_vec(), hex].concat()
}

/// The words of a good file.
pub(super) fn file_words(rng: &mut Random) -> [Vec<u8>; 3] {
    let size = rng.bits();
    let digest = [(); 8].map(|()| rng.word());
    [
        type_word(false),
        size_word(rng, size),
        digest_word(rng, &digest),
    ]
}

/// A name as a first word: bytes that may stand plain are escaped at times all the same.
pub(super) fn name_word(rng: &mut Random, calm: usize, name: &[u8]) -> Vec<u8> {
    let mut word = Vec::new();
    for &byte in name {
        let plain = (33..=126).contains(&byte) && !b"#\\/*?[".contains(&byte);
        if plain && !rng.one_in(calm) {
            word.push(byte);
        } else {
            word.extend(format!("\\{byte:03o}").into_bytes());
        }
    }
    word
}

/// Words that mean nothing here.
pub(super) fn extra(rng: &mut Random) -> Vec<Vec<u8>> {
    let words: [&[u8]; 18] = [
        b"mode=0755",
        b"uname=root",
        b"nlink=2",
        b"time=1.5",
        b"optional",
        b"Type=dir",
        b"TYPE",
        b"=type",
        b"=",
        b"#type=dir",
        b"/set",
        b"sha256=00",
        b"sha256digest2=0",
        b"types=file",
        b"\\164ype=dir",
        b"flags=a=b",
        b"..",
        b".",
    ];
    (0..rng.below(3))
        .map(|_| rng.pick(&words).to_vec())
        .collect()
}

/// The line ends among some bytes.
pub(super) fn line_ends<'a>(bytes: impl IntoIterator<Item = &'a u8>) -> u32 {
    bytes.into_iter().filter(|&&byte| byte == b'\n').count() as u32
}
