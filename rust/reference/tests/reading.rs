//! Reading listings: the paper's sentences one by one.

use reference::generate;
use reference::Profile::Exact;
use reference::{read, MOST_BYTES, MOST_ROWS, ROW};

const AMPLE: usize = MOST_ROWS * ROW;

/// Number and place of a refused text, or 0 and its rows. `@` stands for a file's good words.
fn said(text: &str) -> (u32, u32) {
    said_bytes(text.as_bytes())
}

fn said_bytes(text: &[u8]) -> (u32, u32) {
    let digest = "0123456789abcdefABCDEF0000000000".repeat(2);
    let words = format!("type=file size=5 sha256digest={digest}");
    let mut full = Vec::new();
    for byte in text {
        match byte {
            b'@' => full.extend(words.bytes()),
            _ => full.push(*byte),
        }
    }
    match read(Exact, &full, AMPLE) {
        Ok(table) => (0, (table.len() / ROW) as u32),
        Err(refusal) => {
            assert_eq!(refusal.side, 0);
            (refusal.number, refusal.place)
        }
    }
}

fn all_say(cases: &[(&str, (u32, u32))]) {
    for (text, due) in cases {
        assert_eq!(said(text), *due, "{text:?}");
    }
}

#[test]
fn bytes_and_joined_lines() {
    all_say(&[
        ("", (12, 0)),
        ("\n# c\n/set type=dir\n \t\n", (12, 0)),
        ("\r\n. type=dir", (6, 0)),
        (".\\\n type=dir\\\n \n", (0, 1)),
        ("# c\n. type=dir\na \\\n\\\n type=no\n", (10, 3)),
        ("\\\n\\\n. type=dir\nx\n", (10, 4)),
        ("\\\n\\\n. type=no\n", (10, 1)),
        (". type=dir\na type=dir \\\n# c\n", (0, 2)),
        (". type=dir\n..\\\n# c\n", (9, 2)),
        (". type=dir\na type=dir \\\n# \u{80}\n", (7, 2)),
        ("\\\n# \u{80}\\\n. type=dir\n", (0, 1)),
        ("# c\\\n. type=dir\n", (0, 1)),
        (". type=dir\\\n", (0, 1)),
        (". type=dir\n\\\n", (0, 1)),
        (". type=dir\n\\\\\n type=dir\n", (8, 2)),
        (". type=dir \\\\\n x\n", (0, 1)),
        (". type=dir\\\\\n", (10, 1)),
        (". type=dir\n\\04\\\n0 type=dir\n", (8, 2)),
        (". type=dir\nfo\\\no type=dir\n", (0, 2)),
        (". type=dir\r\n", (7, 1)),
        ("#\r\n. type=dir\r\n", (7, 2)),
        (". \\\r\ntype=dir\n", (7, 1)),
        ("\r\n", (7, 1)),
        ("\u{feff}# c\n", (7, 1)),
        ("\x0b\n", (7, 1)),
        (". type=dir \x7f\n", (7, 1)),
        ("/set \u{80}\n", (7, 1)),
        (". type=dir\n.. \x01\n", (7, 2)),
        (". type=dir\n..\n\x01\n", (7, 3)),
        (" \t. \t type=dir\n\t..\n", (0, 1)),
        (". type=dir\n\\ \n type=dir\n", (8, 2)),
        (". type=dir \\ \n", (0, 1)),
    ]);
    assert_eq!(said_bytes(b". type=dir\n\x80# c\n"), (7, 2));
    assert_eq!(said_bytes(b"#\0\xff\x80\n. type=dir\n"), (0, 1));
    assert_eq!(said_bytes(b". type=dir\n\0\n"), (7, 2));
}

/// A default outlives the folder it was set in, is changed in one, is cleared in one.
#[test]
fn a_default_holds_until_it_is_changed() {
    all_say(&[
        (
            ". type=dir\na type=dir\n/set type=dir\n..\nb\n..\nc\n",
            (0, 4),
        ),
        ("/set type=dir\n.\na\nb\n..\n..\nc\n", (0, 4)),
        (". type=dir\n/set type=dir\na\nb\nc\n", (0, 4)),
        ("/set type=dir\n.\na\n/set type=file\n..\nb\n", (9, 6)),
        (
            "/set type=file\n. type=dir\na type=dir\nb type=dir\n/set type=dir\n..\n..\nc\n",
            (0, 4),
        ),
        ("/set type=dir\n.\na\n/unset type\n..\nb\n", (10, 6)),
        ("/set type=dir\n.\na\nb\n/unset all\n..\n..\nc\n", (10, 8)),
        ("/set type=dir\n.\n/unset type\na type=dir\nb\n", (10, 5)),
        (
            "/set type=dir\n.\na\n/unset all\n..\n/set type=dir\nb\n",
            (0, 3),
        ),
    ]);
}

#[test]
fn slash_lines_and_defaults() {
    all_say(&[
        ("/set type=file\n/set type=dir\n.\na\nb\n", (0, 3)),
        ("/set type=file\n.\n", (10, 2)),
        ("/set type=file\n. type=dir\na size=1\n", (9, 3)),
        ("/set type=dir\n.\n/set type=file\na type=dir\nb\n", (9, 5)),
        ("/set type=dir\n.\na\n/unset all\nb\n", (10, 5)),
        (". type=dir\na type=dir\nb\n", (10, 3)),
        (
            "/set type=dir\n/set\n/set mode=1\n/unset\n/unset size=1 Type\n.\n",
            (0, 1),
        ),
        ("/set type=dir\n/unset type=dir\n.\n", (10, 3)),
        ("/set type=dir\n/unset x all=x\n.\n", (10, 3)),
        ("/set type=dir\n/unset type type\n. type=dir\n", (0, 1)),
        ("/set type=dir type=dir\n", (9, 1)),
        ("/set type=x type=y\n", (9, 1)),
        ("/set type=x size\n", (9, 1)),
        ("/set size=1\n", (9, 1)),
        ("/set sha256digest\n", (9, 1)),
        ("/set type\n", (10, 1)),
        ("/set type=\n", (10, 1)),
        ("/set type=link\n", (10, 1)),
        ("/\n", (9, 1)),
        ("//\n", (9, 1)),
        ("/SET\n", (9, 1)),
        ("/setx\n", (9, 1)),
        ("/set=\n", (9, 1)),
        ("/unset=type\n", (9, 1)),
        ("/set type=dir /set /x\n.\n", (0, 1)),
        (". type=dir\n\\057set type=dir\n", (8, 2)),
        (". type=dir\n..\n/set type=dir\n/unset all\n", (0, 1)),
        (". type=dir\n..\n/set size\n", (9, 3)),
        (". type=dir\n..\n/set type=x\n", (10, 3)),
    ]);
}

#[test]
fn entries_and_names() {
    all_say(&[
        ("\\056 type=dir\n", (11, 1)),
        (". type=dir\n\\056 type=dir\n", (8, 2)),
        (". type=dir\n\\056\\056\n", (8, 2)),
        (". type=dir\n.\\056 x\n", (8, 2)),
        (". type=dir\n\\056. x\n", (8, 2)),
        (". type=dir\n\\0401 type=dir\n \\0402 type=dir\n", (0, 3)),
        (". type=dir\n\\400 type=dir\n", (8, 2)),
        (". type=dir\n\\377 type=dir\n", (0, 2)),
        (". type=dir\n\\000 type=dir\n", (8, 2)),
        (". type=dir\n\\057 type=dir\n", (8, 2)),
        (". type=dir\n\\8 type=dir\n", (8, 2)),
        (". type=dir\n\\04 type=dir\n", (8, 2)),
        (". type=dir\n\\043x type=dir\n", (0, 2)),
        (". type=dir\n]={!~ type=dir\n", (0, 2)),
        (". type=dir\ntype=dir\n", (10, 2)),
        (". type=dir\n./a type=dir\n", (8, 2)),
        ("./a type=dir\n", (11, 1)),
        (". type=dir\n./ type=dir\n", (8, 2)),
        (". type=dir\n... type=dir\n", (0, 2)),
        (". type=dir\na#b type=dir\n", (8, 2)),
        (". type=dir\na* b\n", (8, 2)),
        (". type=dir\na? b\n", (8, 2)),
        (". type=dir\na[ b\n", (8, 2)),
        (". type=dir\n..\n..\n", (11, 3)),
        (".. x\n", (11, 1)),
        (". type=dir\n.. #\n", (9, 2)),
        (". type=dir\n. type=file type\n", (11, 2)),
        (". type=dir\n..\n.\n", (11, 3)),
        ("a @\n. type=dir\n", (11, 1)),
        (". type=dir\n..\na/ type\n", (11, 3)),
        (". type=dir\na @\na type=dir\n", (13, 3)),
        (". type=dir\na type=dir\n..\na @\n", (13, 4)),
        (". type=dir\na type=dir\na type=dir\na @\n", (0, 4)),
        (". type=dir\nb @\na @\n\\142 @\n", (13, 4)),
        (". type=dir\na @\na type=dir size type\n", (9, 3)),
        (". type=dir\na @\na\n", (10, 3)),
        (". type=dir\na type=dir\nb type=dir\n", (0, 3)),
    ]);
    let thirty_two = format!(". type=dir\n{} type=dir\n", "a".repeat(32));
    assert_eq!(said(&thirty_two), (0, 2));
    let escaped = format!(". type=dir\n{} type=dir\n", "\\141".repeat(32));
    assert_eq!(said(&escaped), (0, 2));
    let thirty_three = format!(". type=dir\n{} type=dir\n", "a".repeat(33));
    assert_eq!(said(&thirty_three), (8, 2));
}

#[test]
fn keywords() {
    let entry = |words: &str| said(&format!(". type=dir\na {words}\n"));
    let digest = "f".repeat(64);
    let file = |size: &str| entry(&format!("type=file {size} sha256digest={digest}"));
    for good in [
        "size=0",
        "size=18446744073709551615",
        "size=00000000000000000001",
    ] {
        assert_eq!(file(good), (0, 2), "{good}");
    }
    for bad in [
        "",
        "size",
        "size=",
        "size=18446744073709551616",
        "size=000000000000000000001",
        "size=1 size=1",
        "size=1 size",
        "size==1",
        "size=-1",
        "size=1x",
        "size=99999999999999999999",
        "Size=1",
    ] {
        assert_eq!(file(bad), (9, 2), "{bad}");
    }
    for bad in [
        "",
        "=",
        &"=f".repeat(32),
        &format!("={digest}0"),
        &format!("={}g", &digest[1..]),
    ] {
        assert_eq!(
            entry(&format!("type=file size=1 sha256digest{bad}")),
            (9, 2),
            "{bad}"
        );
    }
    for (words, due) in [
        ("@ sha256digest", (9, 2)),
        ("@ type=file", (9, 2)),
        ("@ type=dir", (9, 2)),
        ("type=no type", (9, 2)),
        ("type=no size size", (10, 2)),
        ("size=x size=y", (10, 2)),
        ("type", (10, 2)),
        ("type=dir=", (10, 2)),
        ("type=d\\151r", (10, 2)),
        ("\\164ype=dir type=dir", (0, 2)),
        ("Type=dir", (10, 2)),
        ("=x type=dir", (0, 2)),
        ("type=dir size size=x sha256digest sha256digest", (0, 2)),
        ("type=link", (10, 2)),
        ("@ sha256=1 sha256digest2", (0, 2)),
    ] {
        assert_eq!(entry(words), due, "{words}");
    }
    all_say(&[
        (". @\n", (10, 1)),
        (". type=dir type=dir\n", (9, 1)),
        (". type=file size size\n", (10, 1)),
        (". type=file type=dir\n", (9, 1)),
        (". type=dir size size\n", (0, 1)),
        (".\n", (10, 1)),
        ("/set type=dir\n. type=no\n", (10, 2)),
        ("/set type=dir\n.\na type=no\n", (10, 3)),
        ("/set type=dir\n.\na size=x size\n", (0, 2)),
    ]);
}

#[test]
fn limits_of_rows_depth_and_bytes() {
    assert_eq!(said_bytes(&generate::crowd(4096)), (0, 4096));
    assert_eq!(said_bytes(&generate::crowd(4097)), (3, 2 + 2 * 4096 - 1));
    let lone = b". type=dir\n";
    assert_eq!(said_bytes(&generate::padded(lone, MOST_BYTES)), (0, 1));
    assert_eq!(said_bytes(&generate::padded(lone, MOST_BYTES + 1)), (6, 0));
    let deep = |folders: usize| format!("/set type=dir\n.\n{}", "a\n".repeat(folders));
    assert_eq!(said(&deep(16)), (0, 17));
    assert_eq!(said(&deep(17)), (14, 19));
    assert_eq!(said(&format!("{}a @\n", deep(16))), (14, 19));
    let above = format!("{}/set type=file\n..\nb type=dir\n..\na", deep(16));
    assert_eq!(said(&format!("{above} type=dir\n")), (13, 23));
    assert_eq!(said(&format!("{above}\n")), (9, 23));
    assert_eq!(said(&format!("{}a type=x\n", deep(16))), (10, 19));
}

#[test]
fn room_comes_last_on_its_line() {
    let number = |text: &[u8], room| {
        let answer = read(Exact, text, room);
        answer
            .map(|table| table.len())
            .map_err(|no| (no.number, no.side, no.place))
    };
    let text = b"#\n. type=dir\na type=dir\n..\na type=dir\n\x01\n";
    assert_eq!(number(text, 0), Err((3, 0, 2)));
    assert_eq!(number(text, 19), Err((3, 0, 2)));
    assert_eq!(number(text, 39), Err((3, 0, 3)));
    assert_eq!(number(text, 40), Err((13, 0, 5)));
    assert_eq!(number(&text[..27], 59), Ok(40));
    assert_eq!(number(&text[..11], 0), Err((6, 0, 0)));
}
