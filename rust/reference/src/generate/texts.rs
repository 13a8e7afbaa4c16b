//! Texts without a known answer, and texts of a given size.

use super::Random;

/// The text with a comment at its end that makes it so many bytes long, if it is shorter.
pub fn padded(text: &[u8], length: usize) -> Vec<u8> {
    let mut text = text.to_vec();
    let missing = length.saturating_sub(text.len());
    match missing {
        0 => {}
        1 => text.push(b'\n'),
        _ => {
            text.push(b'#');
            text.extend(vec![b'x'; missing - 2]);
            text.push(b'\n');
        }
    }
    text
}

/// A text of so many rows, in few enough bytes for more than 4,096 of them.
pub fn crowd(rows: usize) -> Vec<u8> {
    let mut text = String::from("/set type=dir\n.\n");
    for row in 1..rows {
        text.push_str(&format!("{row:x}\n..\n"));
    }
    text.into_bytes()
}

/// The text with one byte changed, put in or taken out.
pub fn hurt(rng: &mut Random, text: &[u8]) -> Vec<u8> {
    let mut text = text.to_vec();
    let byte = match rng.below(3) {
        0 => rng.byte(),
        _ => rng.pick(b"\n\\ \t#/.=*0aA\r"),
    };
    if text.is_empty() {
        return vec![byte];
    }
    let at = rng.below(text.len());
    match rng.below(4) {
        0 => text.insert(at, byte),
        1 => drop(text.remove(at)),
        2 => text[at] ^= 1 << rng.below(8),
        _ => text[at] = byte,
    }
    text
}

/// A digest word that is long enough.
const DIGEST: &str =
    "sha256digest=00112233445566778899aabbccddeeff00112233445566778899AABBCCDDEEFF";

const FIRST: [&str; 38] = [
    ".",
    ".",
    ".",
    "..",
    "..",
    "..",
    "a",
    "a",
    "b",
    "b",
    "A",
    "B",
    "\\101",
    "c",
    "d",
    "D",
    "e",
    "f",
    "/set",
    "/set",
    "/unset",
    "/setx",
    "#",
    "#x",
    "\\056",
    "\\141",
    "a/b",
    "a*",
    "...",
    "\\040",
    "\\000",
    "a\\",
    "type=dir",
    "./a",
    "\\043",
    "",
    "",
    "abcdefghijklmnopqrstuvwxyz0123456",
];

const REST: [&str; 30] = [
    "type=dir",
    "type=dir",
    "type=dir",
    "type=dir",
    "type=dir",
    "type=file",
    "type=file",
    "type=file",
    "type",
    "type=",
    "type=link",
    "type=dir=",
    "size=1",
    "size=1",
    "size=1",
    "size=1",
    "size",
    "size=18446744073709551615",
    "size=18446744073709551616",
    "size=x",
    DIGEST,
    DIGEST,
    DIGEST,
    DIGEST,
    "sha256digest=00",
    "sha256digest",
    "all",
    "mode=0644",
    "#",
    "\\",
];

/// Random lines of words that mean something, with no regard to whether they fit together.
pub fn soup(rng: &mut Random) -> Vec<u8> {
    let mut text = Vec::new();
    if !rng.one_in(4) {
        text.extend(b". type=dir\n");
    }
    if rng.one_in(3) {
        text.extend(b"/set type=dir\n");
    }
    for _ in 0..rng.below(12) {
        text.extend(rng.pick(&FIRST).bytes());
        match rng.below(3) {
            0 => text.extend([" type=file size=3 ", DIGEST].concat().bytes()),
            1 => text.extend(b" type=dir"),
            _ => {
                for _ in 0..rng.below(5) {
                    let blanks: [&[u8]; 6] = [b" ", b" ", b" ", b"\t", b"\\\n", b" \\\n\t"];
                    text.extend_from_slice(rng.pick(&blanks));
                    text.extend(rng.pick(&REST).bytes());
                }
            }
        }
        if rng.one_in(40) {
            text.push(rng.byte());
        }
        if !rng.one_in(60) {
            text.push(b'\n');
        }
    }
    if !rng.one_in(20) {
        text.push(b'\n');
    }
    text
}
