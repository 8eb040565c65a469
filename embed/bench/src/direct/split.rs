//! A put into a full leaf: new nodes, then the log, as 01 orders them.

use super::change::{insert, slot_of, spot, with_name, Change, Wire};
use super::look::{key_of, name, value_of, Way, CAPACITY_AT, COMMIT_AT, ENTRIES, HEIGHT_AT, HEIGHT_MOST, ROOT_AT, USED_AT};
use super::reach::{node_at, Reach};
use super::Refused;

/// Of the eight records the lower four stay.
const LOWER: u64 = 4;
const EIGHT: u64 = 8;
const RISING: u64 = 0x0006_0504_0302_0100;
const PAIRS_AT: usize = 9;
const PAIRS_A_LINE: usize = 4;
const LINE_WORDS: usize = 8;

struct Split<'a, R, W> {
    change: Change<'a, R, W>,
    pairs: usize,
}

/// A record on its way into a node, with its rank there.
struct Coming {
    key: u64,
    value: u64,
    rank: u64,
}

/// The eight records of a full node and one that comes.
struct Eight<'c> {
    node: u64,
    names: u64,
    spot: u64,
    coming: &'c Coming,
}

/// Splits the leaf of the way and what stands full above it.
#[inline(never)]
pub fn put<R: Reach, W: Wire>(change: Change<R, W>, way: &Way, key: u64, value: u64) -> Result<(), Refused> {
    let words = change.words();
    let height = R::get(words, HEIGHT_AT) as usize;
    let used = R::get(words, USED_AT);
    let full = way.path[..height]
        .iter()
        .take_while(|&&node| R::get(words, node_at(node)) & 0xff == ENTRIES)
        .count();
    let needed = full + (full == height) as usize;
    if R::get(words, CAPACITY_AT) - used < needed as u64 {
        return Err(Refused::NoRoom);
    }
    if needed > HEIGHT_MOST {
        return Err(Refused::Damaged);
    }
    let mut split = Split { change, pairs: 0 };
    let mut coming = Coming {
        key,
        value,
        rank: way.after,
    };
    for (level, &node) in way.path[..full].iter().enumerate() {
        coming = split.level(node, used + 1 + level as u64, &coming, level == 0);
        if let Some(&above) = way.path[..height].get(level + 1) {
            coming.rank = split.rank(above, coming.key);
        }
    }
    match way.path[..height].get(full) {
        Some(&parent) => split.taken(parent, &coming, used + full as u64),
        None => split.crowned(&coming, used + needed as u64, height as u64),
    }
    split.logged();
    Ok(())
}

impl<R: Reach, W: Wire> Split<'_, R, W> {
    /// One pair into the log.
    fn note(&mut self, address: usize, value: u64) {
        let at = PAIRS_AT + 2 * self.pairs;
        self.change.store(at, address as u64);
        self.change.store(at + 1, value);
        self.pairs += 1;
    }

    fn note_entry(&mut self, node: u64, entry: u64, record: &Coming) {
        let at = node_at(node) + 2 + 2 * entry as usize;
        self.note(at, record.key);
        self.note(at + 1, record.value);
    }

    fn rank(&self, node: u64, key: u64) -> u64 {
        let node = R::node(self.change.words(), node);
        let slot = R::within(node, 0);
        (1..=slot & 0xff)
            .take_while(|&place| key_of::<R>(node, name(slot, place)) < key)
            .count() as u64
    }

    /// The record in place i of the eight.
    fn record(&self, eight: &Eight, i: u64) -> (u64, u64) {
        if i == eight.coming.rank {
            return (eight.coming.key, eight.coming.value);
        }
        let node = R::node(self.change.words(), eight.node);
        let entry = (eight.names >> (8 * i)) & 0xff;
        (key_of::<R>(node, entry), value_of::<R>(node, entry))
    }

    /// A new node with the records from place `from` of the eight on.
    fn new_node(&mut self, new: u64, link: u64, eight: &Eight, from: u64) {
        let at = node_at(new);
        self.change.store(at, slot_of(RISING, EIGHT - from));
        self.change.store(at + 1, link);
        for i in from..EIGHT {
            let (key, value) = self.record(eight, i);
            let key_at = at + 2 + 2 * (i - from) as usize;
            self.change.store(key_at, key);
            self.change.store(key_at + 1, value);
        }
        self.change.flush(at);
    }

    /// Splits one full node; what goes up, its rank still open.
    fn level(&mut self, node: u64, new: u64, coming: &Coming, leaf: bool) -> Coming {
        let words = self.change.words();
        let slot = R::get(words, node_at(node));
        let link = R::get(words, node_at(node) + 1);
        let spot = spot(slot >> 8, LOWER - 1);
        let eight = Eight {
            node,
            names: insert(slot >> 8, coming.rank, spot),
            spot,
            coming,
        };
        let (fifth, fifth_child) = self.record(&eight, LOWER);
        if leaf {
            self.new_node(new, link, &eight, LOWER);
            self.change.flush(node_at(new) + LINE_WORDS);
        } else {
            self.new_node(new, fifth_child, &eight, LOWER + 1);
        }
        if coming.rank < LOWER {
            self.note_entry(node, eight.spot, coming);
        }
        if leaf {
            self.note(node_at(node) + 1, new);
        }
        self.note(node_at(node), slot_of(eight.names, LOWER));
        Coming {
            key: fifth,
            value: new,
            rank: 0,
        }
    }

    /// The parent with room takes what goes up.
    fn taken(&mut self, parent: u64, coming: &Coming, used: u64) {
        let slot = R::get(self.change.words(), node_at(parent));
        let entry = spot(slot >> 8, slot & 0xff);
        self.note_entry(parent, entry, coming);
        self.note(node_at(parent), with_name(slot, coming.rank, entry));
        self.note(USED_AT, used);
    }

    /// A new root above the old one.
    fn crowned(&mut self, coming: &Coming, new: u64, height: u64) {
        let at = node_at(new);
        let root = R::get(self.change.words(), ROOT_AT);
        for (i, word) in [slot_of(RISING, 1), root, coming.key, coming.value].into_iter().enumerate() {
            self.change.store(at + i, word);
        }
        self.change.flush(at);
        self.note(USED_AT, new);
        self.note(ROOT_AT, new);
        self.note(HEIGHT_AT, height + 1);
    }

    /// (b) to (e): the log flushed, committed, carried out and closed.
    fn logged(&mut self) {
        for line in 0..=self.pairs / PAIRS_A_LINE {
            self.change.flush(COMMIT_AT + LINE_WORDS * line);
        }
        self.change.fence();
        self.change.once(COMMIT_AT, self.pairs as u64);
        for pair in 0..self.pairs {
            let at = PAIRS_AT + 2 * pair;
            let address = R::get(self.change.words(), at) as usize;
            let value = R::get(self.change.words(), at + 1);
            self.change.store(address, value);
            self.change.flush(address);
        }
        self.change.fence();
        self.change.once(COMMIT_AT, 0);
    }
}
