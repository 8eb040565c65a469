//! Pools laid by hand: trees with a full path, so that one put splits as many levels as wished.

use super::random::Random;
use super::rubbish::{lay_header, words};
use crate::model::header::{total_of, WORD_COMMIT, WORD_HEIGHT, WORD_ROOT, WORD_USED};
use crate::model::node::{key_word, slot_word, start_of, value_word, ENTRIES};

/// What tree is wanted. Depths run from 1, the root.
#[derive(Clone, Debug)]
pub struct Shape {
    pub height: usize,
    /// How many levels of the path are full, counted from the leaf.
    pub full: usize,
    /// The place of the path's child in the inner nodes from the root down: 0 is the leftmost child.
    pub places: Vec<usize>,
    /// How many of the leaf's seven records lie below the new one.
    pub below: usize,
    /// Nodes of the capacity that stay unused.
    pub spare: u64,
    /// Nodes beside the path are laid too, so that the pool is well formed; otherwise numbers only.
    pub whole: bool,
}

/// A pool and the key whose put makes the splits.
pub struct Tall {
    pub pool: Vec<u64>,
    pub key: u64,
}

/// The fewest entries of an inner node beside the path.
const FEWEST: usize = 3;
/// From one key to the next.
const STEP: u64 = 10;

/// A node as it is being laid; it and its children are numbered from 1 in the order of laying.
struct Laid {
    inner: bool,
    link: u64,
    records: Vec<(u64, u64)>,
}

struct Builder<'a> {
    shape: &'a Shape,
    nodes: Vec<Laid>,
    last_leaf: Option<usize>,
    next_key: u64,
    key: u64,
    random: &'a mut Random,
}

/// Lays the tree with its nodes numbered, and its entries used, in any order.
pub fn build(shape: &Shape, random: &mut Random) -> Tall {
    let mut builder = Builder {
        shape,
        nodes: Vec::new(),
        last_leaf: None,
        next_key: STEP,
        key: 0,
        random,
    };
    builder.lay(1, true, true);
    let key = builder.key;
    let nodes = builder.nodes;
    let used = nodes.len() as u64;
    let capacity = used + shape.spare;
    let mut numbers: Vec<u64> = (1..=used).collect();
    random.shuffle(&mut numbers);
    let mut pool = words(total_of(capacity) as usize, random);
    lay_header(&mut pool, capacity);
    pool[WORD_USED] = used;
    pool[WORD_ROOT] = numbers[0];
    pool[WORD_HEIGHT] = shape.height as u64;
    pool[WORD_COMMIT] = 0;
    for (i, node) in nodes.iter().enumerate() {
        write_node(&mut pool, numbers[i], node, &numbers, random);
    }
    Tall { pool, key }
}

impl Builder<'_> {
    /// Lays a node and all below it; answers its number, counted in the order of laying.
    fn lay(&mut self, depth: usize, on_path: bool, leftmost: bool) -> u64 {
        let at = self.nodes.len();
        let inner = depth < self.shape.height;
        self.nodes.push(Laid {
            inner,
            link: 0,
            records: Vec::new(),
        });
        if inner {
            self.lay_inner(at, depth, on_path);
        } else {
            self.lay_leaf(at, on_path, leftmost);
        }
        at as u64 + 1
    }

    /// Lays a leaf. Some leftmost ones stay empty and use up no key, so that their parent's first key is its own lowest.
    fn lay_leaf(&mut self, at: usize, on_path: bool, leftmost: bool) {
        if on_path || !leftmost || self.random.percent(80) {
            self.fill_leaf(at, on_path);
        }
        if let Some(earlier) = self.last_leaf {
            self.nodes[earlier].link = at as u64 + 1;
        }
        self.last_leaf = Some(at);
    }

    fn fill_leaf(&mut self, at: usize, on_path: bool) {
        let full = on_path && self.shape.full >= 1;
        let count = if full { ENTRIES } else { self.random.place(ENTRIES) };
        self.next_key += STEP;
        if on_path {
            self.key = self.next_key + STEP * self.shape.below as u64 - STEP / 2;
        }
        for _ in 0..count {
            let value = self.random.next();
            self.nodes[at].records.push((self.next_key, value));
            self.next_key += STEP;
        }
    }

    fn lay_inner(&mut self, at: usize, depth: usize, on_path: bool) {
        let full = on_path && self.shape.height - depth < self.shape.full;
        let count = match (full, depth) {
            (true, _) => ENTRIES,
            (false, 1) => self.shape.places[0].max(1),
            (false, _) if on_path => self.shape.places[depth - 1].max(FEWEST),
            _ => FEWEST,
        };
        for place in 0..=count {
            let key = self.next_key;
            let child_on_path = on_path && place == self.shape.places[depth - 1];
            let child = self.lay_child(depth + 1, child_on_path, place == 0);
            match place {
                0 => self.nodes[at].link = child,
                _ => self.nodes[at].records.push((key, child)),
            }
        }
    }

    /// A child that is laid, or only a number where nothing looks.
    fn lay_child(&mut self, depth: usize, on_path: bool, leftmost: bool) -> u64 {
        if self.shape.whole || on_path {
            return self.lay(depth, on_path, leftmost);
        }
        self.next_key += STEP;
        1
    }
}

/// Writes a node with its entries in any order and rubbish past the count; numbers of laying become those given.
fn write_node(pool: &mut [u64], k: u64, node: &Laid, numbers: &[u64], random: &mut Random) {
    let renumbered = |number: u64| if number == 0 { 0 } else { numbers[number as usize - 1] };
    let mut entries: Vec<usize> = (0..ENTRIES).collect();
    random.shuffle(&mut entries);
    entries.truncate(node.records.len());
    let start = start_of(k) as usize;
    let past = if entries.len() < ENTRIES {
        random.next() << (8 * (entries.len() + 1))
    } else {
        0
    };
    pool[start] = slot_word(&entries) | past;
    pool[start + 1] = renumbered(node.link);
    for (entry, (key, value)) in entries.iter().zip(&node.records) {
        pool[key_word(k, *entry) as usize] = *key;
        pool[value_word(k, *entry) as usize] = if node.inner { renumbered(*value) } else { *value };
    }
}
