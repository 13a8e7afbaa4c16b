//! The other calls through the wrapper: moves, rows to carry, listings, refusals, and that nothing else is touched.
mod common;

use common::{cases, file, row, tree, CANARY};
use kantifero::Profile::{Exact, Folded};
use kantifero::{Refusal, Tally, NO_ROW, ROW};

#[test]
fn a_move_takes_a_subtree_or_its_absence() {
    let (none, p) = (tree(&[]), tree(&[row(1, 0, b"p", 0), row(2, 1, b"x", 1)]));
    let mut names = [[0; 8]; 16];
    names[0] = kantifero::name(b"p").unwrap();
    let mut result = [CANARY; 80];
    assert_eq!(
        kantifero::make_move(Exact, &none, &p, &names, 1, &mut result),
        Ok(3)
    );
    assert_eq!(result[..60], p[..]);
    assert_eq!(
        kantifero::make_move(Exact, &p, &none, &names, 1, &mut result),
        Ok(1)
    );
    assert_eq!(result[..20], none[..]);
    assert_eq!(result[20..60], p[20..]);
    assert!(result[60..].iter().all(|word| *word == CANARY));
    names[1] = kantifero::name(b"x").unwrap();
    let refusal = kantifero::make_move(Exact, &none, &p, &names, 2, &mut result).unwrap_err();
    assert_eq!(
        refusal,
        Refusal {
            number: 4,
            side: 0,
            place: 0
        }
    );
}

#[test]
fn an_entry_carries_a_part_of_its_source() {
    let (none, p) = (
        tree(&[]),
        tree(&[row(1, 0, b"p", 0), row(2, 1, b"x", 1), file(b"q", 2)]),
    );
    assert_eq!(
        kantifero::carried(Exact, &p, &none, [2, 1, NO_ROW]),
        &p[20..60]
    );
    assert_eq!(
        kantifero::carried(Exact, &none, &p, [1, NO_ROW, 3]),
        &p[60..]
    );
    for entry in [
        [1, 1, NO_ROW],
        [3, 1, 1],
        [0, 1, 1],
        [4, 1, 1],
        [2, 4, 0],
        [2, 214_748_365, 0],
    ] {
        assert!(kantifero::carried(Exact, &p, &none, entry).is_empty());
    }
    assert!(kantifero::carried(Exact, &p, &none[..19], [2, 1, NO_ROW]).is_empty());
}

#[test]
fn a_text_is_written_and_read_back() {
    for (_, left, right, _, archive) in cases() {
        for table in [left, right, archive] {
            let mut text = vec![0xC7; 600];
            let bytes = kantifero::write(Exact, &table, &mut text).unwrap();
            assert!(text[bytes..].iter().all(|byte| *byte == 0xC7));
            let mut back = vec![CANARY; table.len() + 30];
            assert_eq!(
                kantifero::read(Exact, &text[..bytes], &mut back),
                Ok(table.len() / ROW)
            );
            assert_eq!(back[..table.len()], table[..]);
            assert!(back[table.len()..].iter().all(|word| *word == 0));
        }
    }
}

/// As a clinic's own tool writes it: the default is set in the first folder, and meant for all of the text.
#[test]
fn a_default_set_in_a_folder_holds_to_the_end() {
    let day = format!("size=0 sha256digest={:08x}{}", 7, "0".repeat(56));
    let left = format!(". type=dir\nleft type=dir\n/set type=file\nx {day}\n");
    let right = format!("..\nright type=dir\ny {day}\n..\n..\n");
    let due = tree(&[
        row(1, 0, b"left", 0),
        row(2, 1, b"x", 7),
        row(1, 0, b"right", 0),
        row(2, 1, b"y", 7),
    ]);
    for profile in [Exact, Folded] {
        let mut table = [CANARY; 110];
        let text = format!("{left}{right}");
        assert_eq!(kantifero::read(profile, text.as_bytes(), &mut table), Ok(5));
        assert_eq!(table[..100], due[..]);
        assert_eq!(table[100..], [0; 10]);
        let text = format!("{left}/unset type\n{right}");
        let refusal = kantifero::read(profile, text.as_bytes(), &mut table).unwrap_err();
        assert_eq!((refusal.number, refusal.place), (10, 8));
    }
}

#[test]
fn a_refused_text_leaves_zeros_and_its_line() {
    let refusals: [(&[u8], u32, u32); 10] = [
        (b". type=dir", 6, 0),
        (b". type=dir\n\x01\n", 7, 2),
        (b". type=dir\na/b type=dir\n", 8, 2),
        (b". type=dir\np type=file size=x\n", 9, 2),
        (b".\n", 10, 1),
        (b"p type=dir\n", 11, 1),
        (b"# nothing\n", 12, 0),
        (b". type=dir\np type=dir\n..\np type=dir\n", 13, 4),
        (b". type=dir\nh type=dir\nh type=dir\n", 3, 3),
        (b"", 12, 0),
    ];
    for (text, number, line) in refusals {
        let mut table = [CANARY; 50];
        let refusal = kantifero::read(Exact, text, &mut table).unwrap_err();
        assert_eq!(
            refusal,
            Refusal {
                number,
                side: 0,
                place: line
            }
        );
        assert!(table.iter().all(|word| *word == 0));
    }
}

#[test]
fn every_refusal_has_a_sentence() {
    let mut sentences: Vec<String> = (1..=14)
        .chain([16])
        .map(|number| {
            Refusal {
                number,
                side: 0,
                place: 0,
            }
            .to_string()
        })
        .collect();
    sentences.sort();
    sentences.dedup();
    assert_eq!(sentences.len(), 15);
    let refusal = Refusal {
        number: 2,
        side: 3,
        place: 0,
    };
    assert_eq!(
        refusal.to_string(),
        "the row breaks the rules, right or source, row 0"
    );
    let refusal = Refusal {
        number: 8,
        side: 0,
        place: 12,
    };
    assert_eq!(refusal.to_string(), "the line has a bad name, line 12");
}

#[test]
fn a_table_has_4096_rows_at_most() {
    let files: Vec<Vec<u32>> = (0..4096)
        .map(|i| file(format!("{i:04}").as_bytes(), i))
        .collect();
    let (none, full, last) = (tree(&[]), tree(&files[..4095]), tree(&files[4095..]));
    assert_eq!(kantifero::check(Exact, &full), Ok(()));
    let refusal = kantifero::check(Exact, &tree(&files)).unwrap_err();
    assert_eq!(
        refusal,
        Refusal {
            number: 1,
            side: 1,
            place: 0
        }
    );
    let run = kantifero::reconcile_in_new(Exact, &none, &full, &none).unwrap();
    assert_eq!((&run.archive, &run.right), (&full, &full));
    assert_eq!(
        run.tally,
        Tally {
            left: 0,
            right: 4095,
            clash: 0
        }
    );
    let refusal = kantifero::reconcile_in_new(Exact, &none, &full, &last).unwrap_err();
    assert_eq!(
        refusal,
        Refusal {
            number: 3,
            side: 1,
            place: 0
        }
    );
    let mut names = [[0; 8]; 16];
    names[0] = kantifero::name(b"4095").unwrap();
    let mut result = vec![0; full.len() + ROW];
    let refusal = kantifero::make_move(Exact, &full, &last, &names, 1, &mut result).unwrap_err();
    assert_eq!(
        refusal,
        Refusal {
            number: 3,
            side: 2,
            place: 0
        }
    );
}
