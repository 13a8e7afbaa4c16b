//! Random layouts of a tree's listing: all of them mean the same tree.

use super::words::{
    comment, digest_word, extra, gap, line_ends, name_word, size_word, spaced, type_word,
};
use super::Random;
use crate::tree::{Node, Path};

/// What a line of a layout is.
#[derive(Clone, Copy, Debug, PartialEq, Eq)]
pub enum What {
    /// A blank line.
    Blank,
    /// A comment.
    Comment,
    /// A /set or /unset line.
    Slash,
    /// The root's line.
    Root,
    /// The line of another row.
    Entry,
    /// A "..".
    Close,
}

/// How things stand before a line.
#[derive(Clone, Debug, Default, PartialEq, Eq)]
pub struct Before {
    /// Whether the root was listed.
    pub root: bool,
    /// How many folders are open: the depth of an entry that would come here.
    pub open: usize,
    /// The default: true for dir, false for file.
    pub default: Option<bool>,
    /// The names already listed in the folder last opened.
    pub names: Path,
}

/// A line, joined lines as one, with its line end.
#[derive(Clone, Debug, PartialEq, Eq)]
pub struct Line {
    /// The bytes, line end included.
    pub bytes: Vec<u8>,
    /// What it is.
    pub what: What,
    /// How things stand before it.
    pub before: Before,
}

/// A listing line by line.
#[derive(Clone, Debug, PartialEq, Eq)]
pub struct Layout {
    /// The lines.
    pub lines: Vec<Line>,
    /// How things stand after the last one.
    pub end: Before,
}

impl Layout {
    /// The whole text.
    pub fn text(&self) -> Vec<u8> {
        self.lines
            .iter()
            .flat_map(|line| line.bytes.clone())
            .collect()
    }

    /// The number of a line's first physical line.
    pub fn number(&self, index: usize) -> u32 {
        1 + line_ends(self.lines[..index].iter().flat_map(|line| &line.bytes))
    }

    /// How things stand before a line, or at the end.
    pub fn before(&self, index: usize) -> &Before {
        self.lines.get(index).map_or(&self.end, |line| &line.before)
    }
}

/// The text of a random layout. Over 150 rows or so it may be longer than a text can be.
pub fn listing(rng: &mut Random, tree: &Node) -> Vec<u8> {
    layout(rng, tree).text()
}

/// A random layout of a tree.
pub fn layout(rng: &mut Random, tree: &Node) -> Layout {
    let calm = rng.pick(&[2, 4, 12, 60]);
    let mut scribe = Scribe {
        rng,
        calm,
        lines: Vec::new(),
        default: None,
        open: Vec::new(),
        root: false,
    };
    scribe.noise();
    let words = scribe.keywords(tree);
    scribe.line(What::Root, b".", words);
    scribe.root = true;
    scribe.open.push(Path::new());
    scribe.folder(tree, true);
    scribe.noise();
    let end = scribe.now();
    let lines = scribe.lines;
    Layout { lines, end }
}

struct Scribe<'r> {
    rng: &'r mut Random,
    /// Oddities come once in so many times.
    calm: usize,
    lines: Vec<Line>,
    default: Option<bool>,
    /// The listed names of each open folder.
    open: Vec<Path>,
    root: bool,
}

impl Scribe<'_> {
    fn now(&self) -> Before {
        Before {
            root: self.root,
            open: self.open.len(),
            default: self.default,
            names: self.open.last().cloned().unwrap_or_default(),
        }
    }

    fn odd(&mut self) -> bool {
        self.rng.one_in(self.calm)
    }

    fn push(&mut self, what: What, bytes: Vec<u8>) {
        let before = self.now();
        self.lines.push(Line {
            bytes,
            what,
            before,
        });
    }

    fn line(&mut self, what: What, first: &[u8], rest: Vec<Vec<u8>>) {
        let bytes = spaced(self.rng, self.calm, first, &rest);
        self.push(what, bytes);
    }

    /// Lines that list nothing.
    fn noise(&mut self) {
        while self.odd() {
            match self.rng.below(4) {
                0 => {
                    let mut bytes = gap(self.rng, self.calm, true);
                    bytes.push(b'\n');
                    self.push(What::Blank, bytes);
                }
                1 => {
                    let bytes = comment(self.rng, self.calm);
                    self.push(What::Comment, bytes);
                }
                _ => self.slash(),
            }
        }
    }

    /// A /set or /unset line that changes the default, or does not.
    fn slash(&mut self) {
        let mut words = extra(self.rng);
        let mut default = self.default;
        let mut first: &[u8] = b"/set";
        match self.rng.below(6) {
            0 => {}
            1 => {
                first = b"/unset";
                words.push(b"size".to_vec());
            }
            2 => {
                first = b"/unset";
                let clears: [&[u8]; 4] = [b"type", b"all", b"type=dir", b"all="];
                words.push(self.rng.pick(&clears).to_vec());
                default = None;
            }
            _ => {
                let dir = self.rng.one_in(2);
                words.push(type_word(dir));
                default = Some(dir);
            }
        }
        self.rng.shuffle(&mut words);
        self.line(What::Slash, first, words);
        self.default = default;
    }

    /// The words after an entry's name.
    fn keywords(&mut self, node: &Node) -> Vec<Vec<u8>> {
        let mut words = Vec::new();
        if self.default != Some(node.is_folder()) || self.rng.one_in(2) {
            words.push(type_word(node.is_folder()));
        }
        match node {
            Node::File { size, digest } => {
                words.push(size_word(self.rng, *size));
                words.push(digest_word(self.rng, digest));
            }
            Node::Folder(_) if self.odd() => {
                words.extend([
                    b"size=no".to_vec(),
                    b"sha256digest".to_vec(),
                    b"size".to_vec(),
                ]);
            }
            Node::Folder(_) => {}
        }
        if self.odd() {
            words.extend(extra(self.rng));
        }
        if self.calm < 60 {
            self.rng.shuffle(&mut words);
        }
        words
    }

    /// The entries of the folder last opened, then most often its end.
    fn folder(&mut self, node: &Node, last: bool) {
        let Node::Folder(entries) = node else { return };
        let mut order: Vec<_> = entries.iter().collect();
        self.rng.shuffle(&mut order);
        let count = order.len();
        for (i, (name, node)) in order.into_iter().enumerate() {
            self.noise();
            let words = self.keywords(node);
            let first = name_word(self.rng, self.calm, name.spelled());
            self.line(What::Entry, &first, words);
            let names = self.open.last_mut().expect("a folder is open");
            names.push(name.clone());
            if node.is_folder() {
                self.open.push(Path::new());
                self.folder(node, last && i + 1 == count);
            }
        }
        self.noise();
        // Folders may be open at the end of the text.
        if !last || !self.rng.one_in(3) {
            self.line(What::Close, b"..", Vec::new());
            self.open.pop();
        }
    }
}
