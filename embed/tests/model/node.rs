//! A node: its sixteen words, the slot word's bytes, and when it is sound and within its cover.

use super::header::{NODES_OFFSET, NODE_WORDS};

/// The most entries of a node.
pub const ENTRIES: usize = 7;

/// The keys that a node may hold: from `from` up to, and without, `to`; 2^64 as `to` is no upper end.
#[derive(Clone, Copy, Debug, PartialEq, Eq)]
pub struct Cover {
    pub from: u128,
    pub to: u128,
}

/// The cover of the root.
pub const WHOLE: Cover = Cover { from: 0, to: 1 << 64 };

#[derive(Clone, Debug)]
pub struct Node {
    pub count: u64,
    /// The seven bytes above the count.
    pub bytes: [u64; ENTRIES],
    /// Next leaf or leftmost child.
    pub link: u64,
    /// Key, and value or child, of every entry, named or not.
    pub entries: [(u64, u64); ENTRIES],
}

/// The first word of node k.
pub fn start_of(k: u64) -> u64 {
    NODES_OFFSET + NODE_WORDS * k - NODE_WORDS
}

/// The word of entry i's key.
pub fn key_word(k: u64, i: usize) -> u64 {
    start_of(k) + 2 + 2 * i as u64
}

/// The word of entry i's value or child.
pub fn value_word(k: u64, i: usize) -> u64 {
    start_of(k) + 3 + 2 * i as u64
}

/// Reads node k, which lies within the slice.
pub fn read(pool: &[u64], k: u64) -> Node {
    let start = start_of(k) as usize;
    let slot = pool[start];
    let mut bytes = [0; ENTRIES];
    let mut entries = [(0, 0); ENTRIES];
    for i in 0..ENTRIES {
        bytes[i] = slot >> (8 * (i + 1)) & 0xff;
        entries[i] = (pool[start + 2 + 2 * i], pool[start + 3 + 2 * i]);
    }
    Node {
        count: slot & 0xff,
        bytes,
        link: pool[start + 1],
        entries,
    }
}

/// The slot word that names these entries, its other bytes zero.
pub fn slot_word(named: &[usize]) -> u64 {
    let mut slot = named.len() as u64;
    for (i, entry) in named.iter().enumerate() {
        slot |= (*entry as u64) << (8 * (i + 1));
    }
    slot
}

impl Node {
    pub fn is_sound(&self, inner: bool) -> bool {
        if self.count > ENTRIES as u64 || (inner && self.count < 1) {
            return false;
        }
        let count = self.count as usize;
        for i in 0..count {
            if self.bytes[i] >= ENTRIES as u64 || self.bytes[..i].contains(&self.bytes[i]) {
                return false;
            }
        }
        let keys = self.keys();
        (1..count).all(|i| keys[i - 1] < keys[i])
    }

    /// The named entries in the slot word's order; for a node whose count and names are sound.
    pub fn named(&self) -> Vec<usize> {
        self.bytes[..self.count as usize].iter().map(|byte| *byte as usize).collect()
    }

    /// Keys of the named entries.
    pub fn keys(&self) -> Vec<u64> {
        self.named().iter().map(|i| self.entries[*i].0).collect()
    }

    /// Keys and values, or keys and children, of the named entries.
    pub fn records(&self) -> Vec<(u64, u64)> {
        self.named().iter().map(|i| self.entries[*i]).collect()
    }

    pub fn is_within(&self, cover: Cover) -> bool {
        self.keys()
            .iter()
            .all(|key| cover.from <= *key as u128 && (*key as u128) < cover.to)
    }

    pub fn is_full(&self) -> bool {
        self.count == ENTRIES as u64
    }

    /// The lowest entry that the slot word does not name.
    pub fn lowest_unused(&self) -> usize {
        lowest_not_in(&self.named())
    }

    /// Child and cover of place p of an inner node: place 0 is the leftmost child, place p the p-th named entry's.
    pub fn child(&self, place: usize, cover: Cover) -> (u64, Cover) {
        let records = self.records();
        let number = if place == 0 { self.link } else { records[place - 1].1 };
        let from = if place == 0 {
            cover.from
        } else {
            records[place - 1].0 as u128
        };
        let to = if place == records.len() {
            cover.to
        } else {
            records[place].0 as u128
        };
        (number, Cover { from, to })
    }
}

/// The lowest number that a list does not hold.
pub fn lowest_not_in(taken: &[usize]) -> usize {
    (0..).find(|i| !taken.contains(i)).expect("a number is free")
}
