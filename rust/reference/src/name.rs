//! Names, and how they are matched.

use std::cmp::Ordering;
use std::rc::Rc;

/// How names are matched, and siblings ordered.
#[derive(Clone, Copy, Debug, PartialEq, Eq, Hash)]
pub enum Profile {
    /// Every byte counts.
    Exact,
    /// Letter case is ignored: A to Z count as a to z.
    Folded,
}

/// Both profiles.
pub const PROFILES: [Profile; 2] = [Profile::Exact, Profile::Folded];

impl Profile {
    /// The name that is spelled so.
    pub fn name(self, spelled: &[u8]) -> Name {
        let fold = |&byte: &u8| match byte {
            65..=90 => byte + 32,
            _ => byte,
        };
        let spelled: Rc<[u8]> = spelled.into();
        let key = match self {
            Profile::Exact => spelled.clone(),
            Profile::Folded => spelled.iter().map(fold).collect(),
        };
        Name { key, spelled }
    }

    /// The path of the names that are spelled so.
    pub fn path<S: AsRef<[u8]>>(self, spelled: &[S]) -> Vec<Name> {
        let names = spelled.iter();
        names.map(|name| self.name(name.as_ref())).collect()
    }
}

/// A name. Two of them are compared by their keys alone, unsigned byte by byte; how they are spelled
/// makes no difference.
#[derive(Clone, Debug)]
pub struct Name {
    key: Rc<[u8]>,
    spelled: Rc<[u8]>,
}

impl Name {
    /// The name's bytes as they stand in a table or, unescaped, in a text.
    pub fn spelled(&self) -> &[u8] {
        &self.spelled
    }
}

impl PartialEq for Name {
    fn eq(&self, other: &Self) -> bool {
        self.key == other.key
    }
}

impl Eq for Name {}

impl PartialOrd for Name {
    fn partial_cmp(&self, other: &Self) -> Option<Ordering> {
        Some(self.cmp(other))
    }
}

impl Ord for Name {
    fn cmp(&self, other: &Self) -> Ordering {
        self.key.cmp(&other.key)
    }
}
