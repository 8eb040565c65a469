//! The way down: header, then each node on the path looked at once. With the checks on, a node's soundness and cover are
//! tested in the pass that finds the rank of the key, and the slot word is read once.

use super::reach::{Node, Reach};
use super::Refused;

pub const ENTRIES: u64 = 7;
pub const HEIGHT_MOST: usize = 8;
const CAPACITY_MOST: u64 = 40_000;
const WORDS_LEAST: usize = 88;

const FORM_AT: usize = 0;
const TOTAL_AT: usize = 1;
const LOG_OFFSET_AT: usize = 2;
const NODES_OFFSET_AT: usize = 3;
pub const CAPACITY_AT: usize = 4;
pub const USED_AT: usize = 5;
pub const ROOT_AT: usize = 6;
pub const HEIGHT_AT: usize = 7;
pub const COMMIT_AT: usize = 8;

/// Where a key belongs: its leaf with the slot word, how many of the leaf's keys are not above the key, whether it is there,
/// and the path, the leaf first.
pub struct Way {
    pub leaf: u64,
    pub slot: u64,
    pub after: u64,
    pub there: bool,
    pub path: [u64; HEIGHT_MOST],
}

impl Way {
    /// The entry that holds the key, which is there.
    pub fn entry(&self) -> u64 {
        name(self.slot, self.after)
    }
}

/// The entry in place `place` of a slot word, counted from 1.
#[inline(always)]
pub fn name(slot: u64, place: u64) -> u64 {
    (slot >> (8 * place)) & 0xff
}

#[inline(always)]
pub fn key_of<R: Reach>(node: &Node, entry: u64) -> u64 {
    R::within(node, 2 + 2 * entry as usize)
}

#[inline(always)]
pub fn value_of<R: Reach>(node: &Node, entry: u64) -> u64 {
    R::within(node, 3 + 2 * entry as usize)
}

/// `number` is in 1..=most.
#[inline(always)]
fn counts(number: u64, most: u64) -> bool {
    number.wrapping_sub(1) < most
}

/// The tests of refusals 2 and 3, and the header's part of 4.
#[inline(always)]
fn header<R: Reach>(words: &[u64]) -> Result<(), Refused> {
    if words.len() < WORDS_LEAST || R::get(words, FORM_AT) != 1 {
        return Err(Refused::NoPool);
    }
    let capacity = R::get(words, CAPACITY_AT);
    let total = R::get(words, TOTAL_AT);
    if !counts(capacity, CAPACITY_MOST) || total != 72 + 16 * capacity || words.len() < total as usize {
        return Err(Refused::NoPool);
    }
    if R::get(words, LOG_OFFSET_AT) != 8 || R::get(words, NODES_OFFSET_AT) != 72 {
        return Err(Refused::NoPool);
    }
    if R::get(words, COMMIT_AT) != 0 {
        return Err(Refused::Unfinished);
    }
    let used = R::get(words, USED_AT);
    if !counts(used, capacity) || !counts(R::get(words, ROOT_AT), used) || !counts(R::get(words, HEIGHT_AT), HEIGHT_MOST as u64) {
        return Err(Refused::Damaged);
    }
    Ok(())
}

/// The keys that a node on the path may hold. It always holds the key looked for, so its upper end can be the last key inside.
struct Cover {
    low: u64,
    top: u64,
}

/// How many keys of a node are not above `key`, or nothing where the node is unsound or has a key outside its cover.
/// Keys that rise strictly stand in different entries, so the names need no test of their own for that.
#[inline(always)]
fn look<R: Reach>(node: &Node, slot: u64, least: u64, cover: &Cover, key: u64) -> Option<u64> {
    let count = slot & 0xff;
    if count < least || count > ENTRIES {
        return None;
    }
    if count == 0 {
        return Some(0);
    }
    let mut names = slot >> 8;
    let first = names & 0xff;
    if first >= ENTRIES {
        return None;
    }
    let mut last = key_of::<R>(node, first);
    if last < cover.low {
        return None;
    }
    let mut after = (last <= key) as u64;
    for _ in 1..count {
        names >>= 8;
        let entry = names & 0xff;
        if entry >= ENTRIES {
            return None;
        }
        let next = key_of::<R>(node, entry);
        if next <= last {
            return None;
        }
        after += (next <= key) as u64;
        last = next;
    }
    (last <= cover.top).then_some(after)
}

/// The same count with no test: it stops at the first key above.
#[inline(always)]
fn find<R: Reach>(node: &Node, slot: u64, key: u64) -> u64 {
    let count = slot & 0xff;
    let mut after = 0;
    while after < count && key_of::<R>(node, name(slot, after + 1)) <= key {
        after += 1;
    }
    after
}

/// The child that has `after` keys before it, the cover narrowed to its own.
#[inline(always)]
fn child<R: Reach, const CHECKED: bool>(node: &Node, slot: u64, after: u64, cover: &mut Cover) -> u64 {
    if CHECKED && after < slot & 0xff {
        cover.top = key_of::<R>(node, name(slot, after + 1)) - 1;
    }
    if after == 0 {
        return R::within(node, 1);
    }
    let entry = name(slot, after);
    cover.low = key_of::<R>(node, entry);
    value_of::<R>(node, entry)
}

/// The way down to the leaf of a key.
#[inline(always)]
pub fn descend<R: Reach, const CHECKED: bool>(words: &[u64], key: u64) -> Result<Way, Refused> {
    if CHECKED {
        header::<R>(words)?;
    }
    let used = R::get(words, USED_AT);
    let mut number = R::get(words, ROOT_AT);
    let mut left = R::get(words, HEIGHT_AT) as usize - 1;
    let mut cover = Cover { low: 0, top: u64::MAX };
    let mut path = [0; HEIGHT_MOST];
    loop {
        if CHECKED && !counts(number, used) {
            return Err(Refused::Damaged);
        }
        let node = R::node(words, number);
        let slot = R::within(node, 0);
        let after = if CHECKED {
            look::<R>(node, slot, (left > 0) as u64, &cover, key).ok_or(Refused::Damaged)?
        } else {
            find::<R>(node, slot, key)
        };
        path[left & (HEIGHT_MOST - 1)] = number;
        if left == 0 {
            let there = after > 0 && key_of::<R>(node, name(slot, after)) == key;
            return Ok(Way {
                leaf: number,
                slot,
                after,
                there,
                path,
            });
        }
        number = child::<R, CHECKED>(node, slot, after, &mut cover);
        left -= 1;
    }
}
