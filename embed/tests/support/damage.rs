//! Damage to a pool: words, bytes, links, children, keys, header words, the commit word and log pairs.

use super::random::Random;
use crate::model::header::{NODES_OFFSET, NODE_WORDS, WORD_CAPACITY, WORD_COMMIT, WORD_HEIGHT, WORD_ROOT, WORD_USED};
use crate::model::node::{key_word, start_of, value_word, ENTRIES};
use crate::model::recover::{pair_words, PAIRS_MOST};

/// Numbers that rubbish is often made of.
pub const ODD_NUMBERS: [u64; 16] = [
    0,
    1,
    2,
    3,
    4,
    7,
    8,
    71,
    72,
    87,
    88,
    255,
    40_000,
    40_001,
    u64::MAX - 1,
    u64::MAX,
];

/// Does one damage to a pool whose header is still right.
pub fn damage(pool: &mut [u64], random: &mut Random) {
    match random.below(12) {
        0 => header_word(pool, random),
        1 => commit_and_log(pool, random),
        2 | 3 => slot_byte(pool, random),
        4 => flip_bit(pool, random),
        5 => link(pool, random),
        6 | 7 => child(pool, random),
        8 | 9 => near_key(pool, random),
        10 => copy_node(pool, random),
        _ => any_word(pool, random),
    }
}

/// A node of the capacity, most often one in use.
fn some_node(pool: &[u64], random: &mut Random) -> u64 {
    let most = pool[WORD_CAPACITY].clamp(1, (pool.len() as u64 - NODES_OFFSET) / NODE_WORDS);
    let used = pool[WORD_USED].clamp(1, most);
    if random.percent(90) {
        random.between(1, used)
    } else {
        random.between(1, most)
    }
}

/// A number of a node, or one just out of reach.
fn some_number(pool: &[u64], random: &mut Random) -> u64 {
    if random.percent(10) {
        random.pick(&ODD_NUMBERS)
    } else {
        random.below(pool[WORD_USED].min(pool[WORD_CAPACITY]).min(50_000) + 2)
    }
}

fn header_word(pool: &mut [u64], random: &mut Random) {
    let word = random.pick(&[
        0,
        1,
        2,
        3,
        4,
        WORD_USED,
        WORD_USED,
        WORD_ROOT,
        WORD_ROOT,
        WORD_HEIGHT,
        WORD_HEIGHT,
    ]);
    pool[word] = match random.below(5) {
        0 => random.pick(&ODD_NUMBERS),
        1 => pool[word].wrapping_add(1),
        2 => pool[word].wrapping_sub(1),
        3 => some_number(pool, random),
        _ => random.between(1, 9),
    };
}

fn commit_and_log(pool: &mut [u64], random: &mut Random) {
    pool[WORD_COMMIT] = random.pick(&[0, 1, 2, 5, PAIRS_MOST - 1, PAIRS_MOST, PAIRS_MOST + 1, u64::MAX]);
    for i in 0..PAIRS_MOST {
        let (address, value) = pair_words(i);
        pool[address as usize] = match random.below(40) {
            0 => random.pick(&ODD_NUMBERS),
            1 => random.below(pool.len() as u64 + 2),
            2 => random.between(5, 7),
            _ => NODES_OFFSET + random.below(NODE_WORDS),
        };
        pool[value as usize] = random.next();
    }
}

fn slot_byte(pool: &mut [u64], random: &mut Random) {
    let word = start_of(some_node(pool, random)) as usize;
    let shift = 8 * random.below(8);
    let byte = if random.percent(80) {
        random.below(9)
    } else {
        random.below(256)
    };
    pool[word] = pool[word] & !(0xff << shift) | byte << shift;
}

fn flip_bit(pool: &mut [u64], random: &mut Random) {
    let word = random.place(pool.len());
    pool[word] ^= 1 << random.below(64);
}

fn link(pool: &mut [u64], random: &mut Random) {
    let word = start_of(some_node(pool, random)) as usize + 1;
    pool[word] = some_number(pool, random);
}

fn child(pool: &mut [u64], random: &mut Random) {
    let entry = random.place(ENTRIES);
    let word = value_word(some_node(pool, random), entry) as usize;
    pool[word] = some_number(pool, random);
}

/// A key goes to one beside another key of its node, or of any node.
fn near_key(pool: &mut [u64], random: &mut Random) {
    let node = some_node(pool, random);
    let other_node = if random.percent(50) { node } else { some_node(pool, random) };
    let other = pool[key_word(other_node, random.place(ENTRIES)) as usize];
    let word = key_word(node, random.place(ENTRIES)) as usize;
    pool[word] = other.wrapping_add(random.below(3)).wrapping_sub(1);
}

fn copy_node(pool: &mut [u64], random: &mut Random) {
    let from = start_of(some_node(pool, random)) as usize;
    let to = start_of(some_node(pool, random)) as usize;
    pool.copy_within(from..from + NODE_WORDS as usize, to);
}

fn any_word(pool: &mut [u64], random: &mut Random) {
    let word = random.place(pool.len());
    pool[word] = if random.percent(50) {
        random.pick(&ODD_NUMBERS)
    } else {
        random.next()
    };
}
