//! Reading an mtree listing into a table.

use crate::answer::{Answer, Refusal};
use crate::listing::MOST_BYTES;
use crate::name::Profile;
use crate::table::{good_name, table, DEEPEST, MOST_ROWS, ROW};
use crate::tree::{Node, Path};

/// The table of a listing, if it fits the lent room in words: in the profile's order, names spelled
/// as in the text.
pub fn read(profile: Profile, text: &[u8], room_words: usize) -> Answer<Vec<u32>> {
    let refused = |number, place| Refusal::new(number, 0, place);
    if text.len() > MOST_BYTES || text.last().is_some_and(|&last| last != b'\n') {
        return Err(refused(6, 0));
    }
    let mut reader = Reader {
        profile,
        room: MOST_ROWS.min(room_words / ROW),
        tree: None,
        default: None,
        open: 0,
        path: Path::new(),
    };
    for line in lines(text) {
        let taken = reader.take(&line.bytes);
        taken.map_err(|number| refused(number, line.number))?;
    }
    reader.tree.as_ref().map(table).ok_or(refused(12, 0))
}

/// A line after joining, without its line end, and the number of its first physical line.
struct Line {
    number: u32,
    bytes: Vec<u8>,
}

/// The lines that are not comments.
fn lines(text: &[u8]) -> Vec<Line> {
    let mut found = Vec::new();
    let mut joined: Option<Line> = None;
    let physical = text.split_inclusive(|&byte| byte == b'\n');
    for (number, with_end) in (1..).zip(physical) {
        let part = &with_end[..with_end.len() - 1];
        let bytes = Vec::new();
        let mut line = joined.take().unwrap_or(Line { number, bytes });
        line.bytes.extend_from_slice(part);
        // In a comment a backslash before the line end is as good as any other byte.
        if words(&line.bytes)
            .first()
            .is_some_and(|word| word[0] == b'#')
        {
            continue;
        }
        if part.last() == Some(&b'\\') {
            line.bytes.pop();
            line.bytes.push(b' ');
            joined = Some(line);
        } else {
            found.push(line);
        }
    }
    found.extend(joined);
    found
}

fn words(line: &[u8]) -> Vec<&[u8]> {
    let parts = line.split(|&byte| byte == b' ' || byte == b'\t');
    parts.filter(|word| !word.is_empty()).collect()
}

#[derive(Clone, Copy, PartialEq, Eq)]
enum Type {
    Dir,
    File,
}

/// What has been read so far.
struct Reader {
    /// How names are matched.
    profile: Profile,
    /// The most rows that may be read.
    room: usize,
    /// The tree, once its root was listed.
    tree: Option<Node>,
    /// The default, from the line that set it on.
    default: Option<Type>,
    /// How many folders are open, the root among them.
    open: usize,
    /// The path of the folder last opened; only of use while a folder is open.
    path: Path,
}

impl Reader {
    /// Takes a line, or gives its first fault in the paper's order.
    fn take(&mut self, line: &[u8]) -> Result<(), u32> {
        if line.iter().any(|byte| !matches!(byte, 9 | 32..=126)) {
            return Err(7);
        }
        let all = words(line);
        let Some((&first, rest)) = all.split_first() else {
            return Ok(());
        };
        match first {
            b"." => self.root(rest),
            b".." => self.close(rest),
            _ if first[0] == b'/' => self.slash(first, rest),
            _ => self.entry(first, rest),
        }
    }

    fn slash(&mut self, first: &[u8], rest: &[&[u8]]) -> Result<(), u32> {
        match first {
            b"/set" => {
                if has(rest, b"size") || has(rest, b"sha256digest") {
                    return Err(9);
                }
                if let Some(value) = single(rest, b"type")? {
                    self.default = Some(type_of(value).ok_or(10u32)?);
                }
                Ok(())
            }
            b"/unset" => {
                if has(rest, b"type") || has(rest, b"all") {
                    self.default = None;
                }
                Ok(())
            }
            _ => Err(9),
        }
    }

    fn root(&mut self, rest: &[&[u8]]) -> Result<(), u32> {
        if self.tree.is_some() {
            return Err(11);
        }
        if self.type_here(rest)? != Type::Dir {
            return Err(10);
        }
        if self.room == 0 {
            return Err(3);
        }
        self.tree = Some(Node::default());
        self.open = 1;
        Ok(())
    }

    fn close(&mut self, rest: &[&[u8]]) -> Result<(), u32> {
        if self.open == 0 {
            return Err(11);
        }
        if !rest.is_empty() {
            return Err(9);
        }
        self.open -= 1;
        self.path.pop();
        Ok(())
    }

    fn entry(&mut self, first: &[u8], rest: &[&[u8]]) -> Result<(), u32> {
        if self.open == 0 {
            return Err(11);
        }
        let name = name_of(first).filter(|name| good_name(name)).ok_or(8u32)?;
        let node = match self.type_here(rest)? {
            Type::Dir => Node::default(),
            Type::File => file_of(rest)?,
        };
        let mut path = self.path.clone();
        path.push(self.profile.name(&name));
        let tree = self.tree.as_mut().expect("a folder is open");
        if path.len() > DEEPEST {
            return Err(14);
        }
        if tree.at(&path).is_some() {
            return Err(13);
        }
        if tree.rows() + 1 > self.room {
            return Err(3);
        }
        let opens = node.is_folder();
        tree.put(&path, Some(node));
        if opens {
            self.open += 1;
            self.path = path;
        }
        Ok(())
    }

    /// The type an entry's words give, or else the default.
    fn type_here(&self, rest: &[&[u8]]) -> Result<Type, u32> {
        match single(rest, b"type")? {
            Some(value) => type_of(value).ok_or(10),
            None => self.default.ok_or(10),
        }
    }
}

/// A word's keyword and value.
fn parted(word: &[u8]) -> (&[u8], &[u8]) {
    match word.iter().position(|&byte| byte == b'=') {
        Some(at) => (&word[..at], &word[at + 1..]),
        None => (word, b""),
    }
}

fn has(words: &[&[u8]], keyword: &[u8]) -> bool {
    words.iter().any(|word| parted(word).0 == keyword)
}

/// The value of a keyword that may stand once.
fn single<'a>(words: &[&'a [u8]], keyword: &[u8]) -> Result<Option<&'a [u8]>, u32> {
    let mut values = words.iter().map(|word| parted(word));
    let value = values.find(|part| part.0 == keyword).map(|part| part.1);
    match values.any(|part| part.0 == keyword) {
        true => Err(9),
        false => Ok(value),
    }
}

fn type_of(value: &[u8]) -> Option<Type> {
    match value {
        b"dir" => Some(Type::Dir),
        b"file" => Some(Type::File),
        _ => None,
    }
}

/// The file that an entry's words give.
fn file_of(rest: &[&[u8]]) -> Result<Node, u32> {
    let size = single(rest, b"size")?.and_then(size_of).ok_or(9u32)?;
    let digest = single(rest, b"sha256digest")?.and_then(digest_of);
    let digest = digest.ok_or(9u32)?;
    Ok(Node::File { size, digest })
}

fn size_of(value: &[u8]) -> Option<u64> {
    let digits = value.iter().all(u8::is_ascii_digit);
    if !digits || !(1..=20).contains(&value.len()) {
        return None;
    }
    std::str::from_utf8(value).ok()?.parse().ok()
}

fn digest_of(value: &[u8]) -> Option<[u32; 8]> {
    if value.len() != 64 || !value.iter().all(u8::is_ascii_hexdigit) {
        return None;
    }
    let hex = std::str::from_utf8(value).ok()?;
    let mut digest = [0; 8];
    for (i, word) in digest.iter_mut().enumerate() {
        *word = u32::from_str_radix(&hex[8 * i..8 * i + 8], 16).ok()?;
    }
    Some(digest)
}

/// A first word's bytes after unescaping, unless a byte or an escape is not allowed.
fn name_of(word: &[u8]) -> Option<Vec<u8>> {
    let mut name = Vec::new();
    let mut rest = word;
    while let Some((&byte, after)) = rest.split_first() {
        rest = after;
        match byte {
            b'\\' => {
                let digits = rest.get(..3)?;
                if !digits.iter().all(|digit| (b'0'..=b'7').contains(digit)) {
                    return None;
                }
                let value = digits.iter().fold(0, |v, d| 8 * v + u32::from(d - b'0'));
                name.push(u8::try_from(value).ok().filter(|&b| b != 0 && b != b'/')?);
                rest = &rest[3..];
            }
            b'#' | b'/' | b'*' | b'?' | b'[' => return None,
            33..=126 => name.push(byte),
            _ => return None,
        }
    }
    Some(name)
}
