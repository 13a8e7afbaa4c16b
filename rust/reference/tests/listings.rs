//! The writer, and reading of random layouts, of texts with one fault and of any text.

mod common;

use common::tree;
use reference::generate::{self, Random, FAULTS};
use reference::Profile::{self, Exact};
use reference::{check, read, spelled, table, write, Node, MOST_BYTES, MOST_ROWS, PROFILES, ROW};

const AMPLE: usize = MOST_ROWS * ROW;

#[test]
fn writer() {
    let tree = tree(&[("a b/x", 1), ("empty", 0), (".h_-9Z", 2)]);
    let due = "#mtree\n. type=dir\n.h_-9Z type=file size=2 sha256digest=";
    let text = String::from_utf8(write(Exact, &table(&tree), 1000).unwrap()).unwrap();
    let two = "00000002".repeat(8);
    let one = "00000001".repeat(8);
    let rest = format!(
        "{two}\na\\040b type=dir\nx type=file size=1 sha256digest={one}\n..\nempty type=dir\n..\n..\n"
    );
    assert_eq!(text, format!("{due}{rest}"));
    assert_eq!(
        write(Exact, &table(&tree), text.len()).unwrap().len(),
        text.len()
    );
    let short = write(Exact, &table(&tree), text.len() - 1).unwrap_err();
    assert_eq!((short.number, short.side, short.place), (3, 1, 0));
}

/// Letters, digits, dot, underscore and hyphen are plain; every other byte is escaped.
#[test]
fn spelling_of_every_byte() {
    let plain = "abcdefghijklmnopqrstuvwxyzABCDEFGHIJKLMNOPQRSTUVWXYZ0123456789._-";
    for byte in 1..=255u8 {
        let due = match plain.as_bytes().contains(&byte) {
            true => char::from(byte).to_string(),
            false => format!("\\{}{}{}", byte / 64, byte / 8 % 8, byte % 8),
        };
        assert_eq!(spelled(&[byte]), due);
    }
}

/// A lone root takes 21 bytes, and a folder beside it 13 and its name.
#[test]
fn writer_at_the_limit() {
    let folders = |lengths: &[usize]| {
        let mut tree = Node::default();
        for (number, &length) in lengths.iter().enumerate() {
            let name = format!("{number:0length$}");
            tree.put(&Exact.path(&[name]), Some(Node::default()));
        }
        table(&tree)
    };
    let mut lengths = vec![32; 1454];
    lengths.extend([28, 31]);
    let exact = write(Exact, &folders(&lengths), usize::MAX).unwrap();
    assert_eq!(exact.len(), MOST_BYTES);
    lengths[1455] = 32;
    let refusal = write(Exact, &folders(&lengths), usize::MAX).unwrap_err();
    assert_eq!((refusal.number, refusal.side, refusal.place), (3, 1, 0));
}

#[test]
fn what_is_written_is_read_back() {
    for profile in PROFILES {
        let mut rng = Random::new(3);
        for _ in 0..2000 {
            let size = generate::size(&mut rng).min(300);
            let words = table(&generate::tree(&mut rng, profile, size));
            let text = write(profile, &words, MOST_BYTES).unwrap();
            assert_eq!(read(profile, &text, words.len()).unwrap(), words);
            let short = read(profile, &text, words.len() - 1);
            assert_eq!(short.unwrap_err().number, 3);
            assert_eq!(write(profile, &words, text.len()).unwrap(), text);
        }
    }
}

#[test]
fn every_layout_means_its_tree() {
    for profile in PROFILES {
        let mut rng = Random::new(4);
        for _ in 0..4000 {
            let size = generate::size(&mut rng).min(150);
            let words = table(&generate::tree(&mut rng, profile, size));
            let text = generate::listing(&mut rng, &check(profile, &words).unwrap());
            assert!(text.len() <= MOST_BYTES);
            let answer = read(profile, &text, words.len());
            let shown = String::from_utf8_lossy(&text);
            assert_eq!(answer.as_ref(), Ok(&words), "{shown}");
        }
    }
}

#[test]
fn every_fault_is_found_on_its_line() {
    for profile in PROFILES {
        let mut rng = Random::new(5);
        for _ in 0..2000 {
            let size = generate::size(&mut rng).min(60);
            let tree = generate::tree(&mut rng, profile, size);
            for number in FAULTS {
                let bad = generate::faulty(&mut rng, profile, &tree, number);
                let no = read(profile, &bad.text, bad.room_words).expect_err("a fault");
                let due = (bad.number, 0, bad.place);
                let text = String::from_utf8_lossy(&bad.text);
                assert_eq!((no.number, no.side, no.place), due, "{text}");
            }
        }
    }
}

/// What is read is a good table, whatever the text; every number comes up.
#[test]
fn any_text_gives_a_good_table_or_a_number() {
    for profile in PROFILES {
        let mut rng = Random::new(6);
        let mut seen = [0; 15];
        for round in 0..40_000 {
            let text = any_text(&mut rng, profile, round);
            let room = ROW * rng.below(7) + rng.below(ROW);
            match read(profile, &text, room) {
                Ok(words) => {
                    seen[0] += 1;
                    assert!(words.len() <= room);
                    let again = write(profile, &words, MOST_BYTES).unwrap();
                    assert_eq!(read(profile, &again, AMPLE).unwrap(), words);
                }
                Err(refusal) => {
                    seen[refusal.number as usize] += 1;
                    let lines = text.iter().filter(|&&byte| byte == b'\n').count() as u32;
                    assert!(refusal.place <= lines);
                }
            }
        }
        for number in [0, 3, 6, 7, 8, 9, 10, 11, 12, 13] {
            assert!(seen[number] > 50, "{number}: {seen:?}");
        }
    }
}

/// Lines of any words, or a small listing with a byte changed.
fn any_text(rng: &mut Random, profile: Profile, round: u32) -> Vec<u8> {
    match round % 2 {
        0 => generate::soup(rng),
        _ => {
            let tree = generate::tree(rng, profile, 4);
            let text = generate::listing(rng, &tree);
            generate::hurt(rng, &text)
        }
    }
}
