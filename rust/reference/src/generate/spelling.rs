//! Names in other letter cases.

use super::Random;
use crate::name::{Name, Profile};
use crate::tree::Node;

/// A name's bytes with letters in another case: all in one, or each in any.
pub fn recased(rng: &mut Random, spelled: &[u8]) -> Vec<u8> {
    let mut spelled = spelled.to_vec();
    match rng.below(4) {
        0 => spelled.make_ascii_uppercase(),
        1 => spelled.make_ascii_lowercase(),
        _ => {
            for byte in spelled.iter_mut().filter(|byte| byte.is_ascii_alphabetic()) {
                *byte ^= 32 * rng.below(2) as u8;
            }
        }
    }
    spelled
}

/// The same tree with about every second name in another case. Where every byte counts that would be
/// another tree, so there it is the tree as it was.
pub fn respelled(rng: &mut Random, profile: Profile, tree: &Node) -> Node {
    let Node::Folder(entries) = tree else {
        return tree.clone();
    };
    if profile == Profile::Exact {
        return tree.clone();
    }
    let spell = |(name, node): (&Name, &Node)| {
        let name = match rng.one_in(2) {
            true => profile.name(&recased(rng, name.spelled())),
            false => name.clone(),
        };
        (name, respelled(rng, profile, node))
    };
    Node::Folder(entries.iter().map(spell).collect())
}
