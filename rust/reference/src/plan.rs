//! What the program syncplan prints.

use crate::listing::spelled;
use crate::name::Profile;
use crate::reading::read;
use crate::reconcile::{reconcile, Rooms, CLASH, LEFT_GETS, RIGHT_GETS};
use crate::table::{path_of, NO_ROW, ROW};

const PROGRAM_ROWS: usize = 128;
const PROGRAM_BYTES: usize = 16_384;

/// What syncplan prints for the bytes of archive, left and right, each absent if there is no file.
/// Paths are spelled as left has them, and those that left has not as right has them.
pub fn plan(profile: Profile, files: [Option<&[u8]>; 3]) -> String {
    let mut tables = Vec::new();
    for (name, file) in ["archive", "left", "right"].iter().zip(files) {
        let text = file.filter(|text| text.len() <= PROGRAM_BYTES);
        let answer = text.map(|text| read(profile, text, PROGRAM_ROWS * ROW));
        match answer {
            Some(Ok(table)) => tables.push(table),
            Some(Err(no)) => return format!("refused {name} {} {}\n", no.number, no.place),
            None => return format!("refused {name} 6 0\n"),
        }
    }
    let outcome = reconcile(profile, &tables[0], &tables[1], &tables[2], Rooms::AMPLE)
        .expect("three such trees have room");
    let mut printed = String::new();
    for [kind, left, right] in &outcome.list {
        let mark = match *kind {
            LEFT_GETS => '<',
            RIGHT_GETS => '>',
            CLASH => '!',
            _ => unreachable!("no other kind is listed"),
        };
        let path = match *left {
            NO_ROW => path_of(profile, &tables[2], *right),
            row => path_of(profile, &tables[1], row),
        };
        let names: Vec<String> = path.iter().map(|name| spelled(name.spelled())).collect();
        printed.push_str(&format!("{mark} ./{}\n", names.join("/")));
    }
    let [left, right, clash] = outcome.tally;
    printed.push_str(&format!("= {left} {right} {clash}\n"));
    printed
}
