//! Reconciling through the wrapper: document cases, refusals, and that nothing else is touched.
mod common;

use common::{cases, file, tree, CANARY};
use kantifero::Profile::Exact;
use kantifero::{Buffers, Counts, Refusal, Tally};

#[test]
fn cases_1_to_11() {
    for (i, (archive, left, right, list, new_archive)) in cases().into_iter().enumerate() {
        let run = kantifero::reconcile_in_new(Exact, &archive, &left, &right).unwrap();
        assert_eq!(run.list, list, "list of C{}", i + 1);
        assert_eq!(run.archive, new_archive, "archive of C{}", i + 1);
        let count = |kind| list.iter().filter(|entry| entry[0] == kind).count() as u32;
        assert_eq!(
            run.tally,
            Tally {
                left: count(1),
                right: count(2),
                clash: count(3)
            },
            "tally of C{}",
            i + 1
        );
        for new in [&run.archive, &run.left, &run.right] {
            assert_eq!(kantifero::check(Exact, new), Ok(()));
        }
    }
}

#[test]
fn buffers_are_written_at_their_start_alone() {
    let (none, f) = (tree(&[]), tree(&[file(b"p", 1)]));
    let mut lent = [[CANARY; 50]; 4];
    let [archive, left, right, list] = &mut lent;
    let mut tally = Tally {
        left: 7,
        right: 8,
        clash: 9,
    };
    let buffers = Buffers {
        archive,
        left,
        right,
        list,
    };
    let counts = kantifero::reconcile(Exact, &none, &f, &none, buffers, &mut tally);
    assert_eq!(
        counts,
        Ok(Counts {
            archive: 2,
            left: 2,
            right: 2,
            list: 1
        })
    );
    assert_eq!(
        tally,
        Tally {
            left: 0,
            right: 1,
            clash: 0
        }
    );
    for (buffer, words) in lent.iter().zip([40, 40, 40, 3]) {
        assert!(buffer[words..].iter().all(|word| *word == CANARY));
    }
    for buffer in &lent[..3] {
        assert_eq!(buffer[..40], f[..]);
    }
}

#[test]
fn a_refused_reconciliation_changes_nothing() {
    let (none, f) = (tree(&[]), tree(&[file(b"p", 1)]));
    for (side, rooms) in [
        (1, [39, 40, 40, 3]),
        (2, [40, 39, 40, 3]),
        (3, [40, 40, 39, 3]),
        (4, [40, 40, 40, 2]),
    ] {
        let mut lent = [[CANARY; 40]; 4];
        let [archive, left, right, list] = &mut lent;
        let mut tally = Tally {
            left: 7,
            right: 8,
            clash: 9,
        };
        let buffers = Buffers {
            archive: &mut archive[..rooms[0]],
            left: &mut left[..rooms[1]],
            right: &mut right[..rooms[2]],
            list: &mut list[..rooms[3]],
        };
        let refusal =
            kantifero::reconcile(Exact, &none, &f, &none, buffers, &mut tally).unwrap_err();
        assert_eq!(
            refusal,
            Refusal {
                number: 3,
                side,
                place: 0
            }
        );
        assert_eq!(
            tally,
            Tally {
                left: 7,
                right: 8,
                clash: 9
            }
        );
        assert!(lent.iter().flatten().all(|word| *word == CANARY));
    }
}
