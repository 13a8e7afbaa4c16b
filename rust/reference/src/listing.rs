//! Writing a table as an mtree listing.

use crate::answer::{Answer, Refusal};
use crate::name::Profile;
use crate::table::check;
use crate::tree::Node;

/// The most bytes a text has.
pub const MOST_BYTES: usize = 65_536;

/// A name's bytes as the writer spells them.
pub fn spelled(name: &[u8]) -> String {
    let spell = |&byte: &u8| match byte {
        b'a'..=b'z' | b'A'..=b'Z' | b'0'..=b'9' | b'.' | b'_' | b'-' => {
            char::from(byte).to_string()
        }
        _ => format!("\\{byte:03o}"),
    };
    name.iter().map(spell).collect()
}

/// The listing of a table, if it fits the lent room in bytes.
pub fn write(profile: Profile, table: &[u32], room_bytes: usize) -> Answer<Vec<u8>> {
    let tree = check(profile, table)?;
    let mut text = String::from("#mtree\n");
    put_lines(&mut text, ".", &tree);
    if text.len() > MOST_BYTES || text.len() > room_bytes {
        return Err(Refusal::new(3, 1, 0));
    }
    Ok(text.into_bytes())
}

fn put_lines(text: &mut String, name: &str, node: &Node) {
    match node {
        Node::File { size, digest } => {
            let hex: String = digest.iter().map(|word| format!("{word:08x}")).collect();
            text.push_str(&format!(
                "{name} type=file size={size} sha256digest={hex}\n"
            ));
        }
        Node::Folder(entries) => {
            text.push_str(&format!("{name} type=dir\n"));
            for (name, node) in entries {
                put_lines(text, &spelled(name.spelled()), node);
            }
            text.push_str("..\n");
        }
    }
}
