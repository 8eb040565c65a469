//! The way from the root to the leaf that covers a key, the path part of refusal 4, and fetch.

use super::header::{admit, Header};
use super::node::{read, Node, WHOLE};
use super::refusal::DAMAGED;
use super::Outcome;

/// A node on the path.
#[derive(Clone, Debug)]
pub struct Step {
    pub number: u64,
    pub node: Node,
}

/// The nodes from the root to the leaf for a key, or refusal 4.
pub fn path(pool: &[u64], header: Header, key: u64) -> Result<Vec<Step>, u64> {
    let mut steps = Vec::new();
    let mut number = header.root;
    let mut cover = WHOLE;
    for depth in 1..=header.height {
        if number < 1 || number > header.used {
            return Err(DAMAGED);
        }
        let node = read(pool, number);
        let inner = depth < header.height;
        if !node.is_sound(inner) || !node.is_within(cover) {
            return Err(DAMAGED);
        }
        steps.push(Step {
            number,
            node: node.clone(),
        });
        if inner {
            let place = node.keys().iter().filter(|other| **other <= key).count();
            (number, cover) = node.child(place, cover);
        }
    }
    Ok(steps)
}

/// The named entry of a leaf that holds a key.
pub fn entry_of(leaf: &Node, key: u64) -> Option<usize> {
    leaf.named().into_iter().find(|i| leaf.entries[*i].0 == key)
}

/// Fetch: found or absent, or refusals 2 to 4.
pub fn fetch(pool: &[u64], key: u64) -> Result<Outcome, u64> {
    let header = admit(pool)?;
    let steps = path(pool, header, key)?;
    let leaf = &steps[steps.len() - 1].node;
    match entry_of(leaf, key) {
        Some(i) => Ok(Outcome::Found(leaf.entries[i].1)),
        None => Ok(Outcome::Absent),
    }
}
