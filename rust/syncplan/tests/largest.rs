//! The largest plans that three files can give, all of 128 rows and 16,384 bytes.

use reference::generate::padded;
use reference::{Profile, PROFILES};
use syncplan_tests::{arguments, check, Files, Folder, MOST_BYTES, MOST_ROWS};

/// The plan must fit into so many bytes.
const ROOM: usize = 1_048_576;

/// A name of 32 bytes that stand plain in a file and are escaped in the plan, by its number.
fn name(number: usize) -> String {
    let bits = (0..8).rev().map(|bit| number >> bit & 1);
    let digits: String = bits.map(|bit| ["!", "$"][bit]).collect();
    format!("{digits}{}", "~".repeat(24))
}

/// A name as the plan spells it.
fn spelled(name: &str) -> String {
    name.bytes().map(|byte| format!("\\{byte:03o}")).collect()
}

/// So many folders, one in the other, and in the last of them files by number and content, padded
/// to the most bytes that a file may have.
fn file(folders: usize, files: &[(usize, usize)]) -> Vec<u8> {
    assert_eq!(1 + folders + files.len(), MOST_ROWS);
    let mut text = String::from("/set type=file\n. type=dir\n");
    for depth in 0..folders {
        text.push_str(&format!("{} type=dir\n", name(depth)));
    }
    for (number, content) in files {
        let digest = content.to_string().repeat(64);
        let name = name(*number);
        text.push_str(&format!("{name} size={content} sha256digest={digest}\n"));
    }
    assert!(text.len() <= MOST_BYTES, "{} bytes", text.len());
    padded(text.as_bytes(), MOST_BYTES)
}

/// The kilobytes of stack that are enough: of the usual 8,192 a quarter, and more for the keys of
/// three tables.
fn little_stack(profile: Profile) -> usize {
    match profile {
        Profile::Exact => 2048,
        Profile::Folded => 3072,
    }
}

/// Runs the program on the largest files, with the usual stack and with little of it.
fn due_with_little_stack(files: &Files, printed: &str) {
    assert!(printed.len() <= ROOM);
    let folder = Folder::new();
    folder.put_all(files);
    folder.due_in_both(printed);
    for profile in PROFILES {
        let mut command = folder.command_with_stack(little_stack(profile));
        command.args(arguments(profile));
        check(&command.output().expect("a shell starts"), printed);
    }
}

/// Fifteen folders that both sides have, each of which has 112 files more that the other has not.
/// Of these the archive has 44 as they are and 12 otherwise.
fn deep() -> (Files, String) {
    let mut sides = [(); 3].map(|()| Vec::new());
    let folders: String = (0..15).map(|depth| spelled(&name(depth)) + "/").collect();
    let mut plan = String::new();
    for number in 0..224 {
        let side = number % 2;
        sides[1 + side].push((number, 1));
        let mark = match number / 2 {
            0..=43 => {
                sides[0].push((number, 1));
                ["<", ">"][side]
            }
            44..=55 => {
                sides[0].push((number, 2));
                "!"
            }
            _ => [">", "<"][side],
        };
        plan.push_str(&format!("{mark} ./{folders}{}\n", spelled(&name(number))));
    }
    plan.push_str("= 100 100 24\n");
    (sides.map(|files| Some(file(15, &files))), plan)
}

/// No plan is larger: of depth 16 there are at most 112 paths a side beneath 15 folders on both,
/// a line of that depth has at most 2,068 bytes, and a tally of 224 at most 13.
#[test]
fn most_bytes_of_a_plan() {
    let (files, plan) = deep();
    assert_eq!(plan.len(), 224 * 2068 + 13);
    due_with_little_stack(&files, &plan);
}

#[test]
fn most_lines_of_a_plan() {
    let numbers = |from: usize| (from..from + 127).map(|number| (number, 1)).collect();
    let sides: [Vec<(usize, usize)>; 3] = [numbers(60), numbers(0), numbers(127)];
    let line = |number: usize| {
        let mark = match number {
            0..=59 => ">",
            60..=126 => "<",
            127..=186 => ">",
            _ => "<",
        };
        format!("{mark} ./{}\n", spelled(&name(number)))
    };
    let lines: String = (0..254).map(line).collect();
    let plan = format!("{lines}= 134 120 0\n");
    assert_eq!(plan.len(), 254 * 133 + 12);
    let files = sides.map(|files| Some(file(0, &files)));
    due_with_little_stack(&files, &plan);
}

/// As many clashes as there can be: 127 files that differ on all three.
#[test]
fn most_clashes() {
    let numbers = |content: usize| (0..127).map(|number| (number, content)).collect();
    let sides: [Vec<(usize, usize)>; 3] = [numbers(1), numbers(2), numbers(3)];
    let line = |number: usize| format!("! ./{}\n", spelled(&name(number)));
    let lines: String = (0..127).map(line).collect();
    let files = sides.map(|files| Some(file(0, &files)));
    due_with_little_stack(&files, &format!("{lines}= 0 0 127\n"));
}
