//! Memory that never was a pool, or has the header of one with rubbish behind.

use super::damage::ODD_NUMBERS;
use super::random::Random;
use crate::model::header::{total_of, FORM, LOG_OFFSET, NODES_OFFSET};
use crate::model::header::{
    WORD_CAPACITY, WORD_COMMIT, WORD_FORM, WORD_HEIGHT, WORD_LOG, WORD_NODES, WORD_ROOT, WORD_TOTAL, WORD_USED,
};
use crate::model::node::{slot_word, start_of, ENTRIES};

/// A word of rubbish.
pub fn word(random: &mut Random) -> u64 {
    match random.below(4) {
        0 => random.next(),
        1 => random.below(100),
        2 => some_slot_word(random),
        _ => random.pick(&ODD_NUMBERS),
    }
}

pub fn words(len: usize, random: &mut Random) -> Vec<u64> {
    (0..len).map(|_| word(random)).collect()
}

/// A slot word that most often names different entries.
fn some_slot_word(random: &mut Random) -> u64 {
    let mut entries: Vec<usize> = (0..ENTRIES).collect();
    random.shuffle(&mut entries);
    let count = random.place(ENTRIES + 1);
    let slot = slot_word(&entries[..count]);
    if random.percent(95) {
        slot
    } else {
        slot ^ 1 << random.below(64)
    }
}

/// The words 0 to 4 of a pool of this capacity.
pub fn lay_header(pool: &mut [u64], capacity: u64) {
    pool[WORD_FORM] = FORM;
    pool[WORD_TOTAL] = total_of(capacity);
    pool[WORD_LOG] = LOG_OFFSET;
    pool[WORD_NODES] = NODES_OFFSET;
    pool[WORD_CAPACITY] = capacity;
}

/// A right header with rubbish behind it, cut to any length.
pub fn headed(random: &mut Random) -> Vec<u64> {
    let capacity = random.between(1, 9);
    let len = random.between(total_of(capacity), total_of(capacity) + 20);
    let mut pool = words(len as usize, random);
    lay_header(&mut pool, capacity);
    if random.percent(80) {
        pool[WORD_COMMIT] = 0;
    }
    if random.percent(5) {
        pool.truncate(random.place(len as usize));
    }
    pool
}

/// A right header and nodes that are mostly sound, joined at random: much of it passes for a pool on some paths.
pub fn plausible(random: &mut Random) -> Vec<u64> {
    let capacity = random.between(1, 12);
    let used = random.between(1, capacity);
    let mut pool = words(total_of(capacity) as usize + random.place(9), random);
    lay_header(&mut pool, capacity);
    pool[WORD_USED] = used;
    pool[WORD_ROOT] = random.between(1, used);
    pool[WORD_HEIGHT] = random.between(1, 4);
    pool[WORD_COMMIT] = 0;
    for k in 1..=capacity {
        plausible_node(&mut pool, k, used, random);
    }
    pool
}

/// Keys that rise in the order of the slot word, values that may be children.
fn plausible_node(pool: &mut [u64], k: u64, used: u64, random: &mut Random) {
    let start = start_of(k) as usize;
    let slot = some_slot_word(random);
    let step = random.pick(&[1, 10, 1000]);
    let mut key = if random.percent(50) { 0 } else { random.below(60) };
    pool[start] = slot;
    pool[start + 1] = random.below(used + 1);
    for i in 0..ENTRIES {
        let entry = (slot >> (8 * (i + 1)) & 0xff) as usize;
        if entry < ENTRIES {
            pool[start + 2 + 2 * entry] = key;
            pool[start + 3 + 2 * entry] = if random.percent(3) { 0 } else { random.between(1, used) };
        }
        key += if random.percent(3) { 0 } else { random.between(1, step) };
    }
}
