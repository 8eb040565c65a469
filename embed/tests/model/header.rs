//! The header: the words of a pool, refusal 2, the header part of refusal 4, and format.

use super::events::{admit_list, flush_of, store, Event};
use super::refusal::{BAD_CAPACITY, DAMAGED, NO_POOL, SHORT_SLICE, UNFINISHED};
use super::Planned;

pub const LINE: u64 = 8;
pub const FORM: u64 = 1;
pub const LOG_OFFSET: u64 = 8;
pub const NODES_OFFSET: u64 = 72;
pub const NODE_WORDS: u64 = 16;
pub const CAPACITY_MOST: u64 = 40_000;
pub const HEIGHT_MOST: u64 = 8;

pub const WORD_FORM: usize = 0;
pub const WORD_TOTAL: usize = 1;
pub const WORD_LOG: usize = 2;
pub const WORD_NODES: usize = 3;
pub const WORD_CAPACITY: usize = 4;
pub const WORD_USED: usize = 5;
pub const WORD_ROOT: usize = 6;
pub const WORD_HEIGHT: usize = 7;
pub const WORD_COMMIT: usize = 8;

/// The fewest words of a pool: those of capacity 1.
pub const POOL_LEAST: usize = 88;

#[derive(Clone, Copy, Debug)]
pub struct Header {
    pub capacity: u64,
    pub used: u64,
    pub root: u64,
    pub height: u64,
}

/// The words of a pool of a lawful capacity.
pub fn total_of(capacity: u64) -> u64 {
    NODES_OFFSET + NODE_WORDS * capacity
}

/// Refusal 2.
pub fn admit_pool(pool: &[u64]) -> Result<(), u64> {
    if pool.len() < POOL_LEAST || pool[WORD_FORM] != FORM {
        return Err(NO_POOL);
    }
    let capacity = pool[WORD_CAPACITY];
    if !(1..=CAPACITY_MOST).contains(&capacity) {
        return Err(NO_POOL);
    }
    let total = total_of(capacity);
    if pool[WORD_TOTAL] != total || pool[WORD_LOG] != LOG_OFFSET || pool[WORD_NODES] != NODES_OFFSET {
        return Err(NO_POOL);
    }
    if (pool.len() as u64) < total {
        return Err(NO_POOL);
    }
    Ok(())
}

/// Refusal 3.
pub fn admit_commit(pool: &[u64]) -> Result<(), u64> {
    if pool[WORD_COMMIT] != 0 {
        return Err(UNFINISHED);
    }
    Ok(())
}

/// The header part of refusal 4, and the header if it passes.
pub fn admit_header(pool: &[u64]) -> Result<Header, u64> {
    let capacity = pool[WORD_CAPACITY];
    let used = pool[WORD_USED];
    let root = pool[WORD_ROOT];
    let height = pool[WORD_HEIGHT];
    let fits = (1..=capacity).contains(&used) && (1..=used).contains(&root) && (1..=HEIGHT_MOST).contains(&height);
    if !fits {
        return Err(DAMAGED);
    }
    Ok(Header {
        capacity,
        used,
        root,
        height,
    })
}

/// Refusals 2, 3 and the header part of 4, as fetch, put and delete look at them.
pub fn admit(pool: &[u64]) -> Result<Header, u64> {
    admit_pool(pool)?;
    admit_commit(pool)?;
    admit_header(pool)
}

/// Format: looks at the lengths and the capacity only.
pub fn format(pool_len: usize, list_len: usize, capacity: u64) -> Planned<()> {
    admit_list(list_len)?;
    if !(1..=CAPACITY_MOST).contains(&capacity) {
        return Err(BAD_CAPACITY);
    }
    if (pool_len as u64) < total_of(capacity) {
        return Err(SHORT_SLICE);
    }
    let mut events = vec![store(0, 0), flush_of(0), Event::Fence];
    let header = [total_of(capacity), LOG_OFFSET, NODES_OFFSET, capacity, 1, 1, 1];
    for (i, value) in header.iter().enumerate() {
        events.push(store(i as u64 + 1, *value));
    }
    for word in [LOG_OFFSET, NODES_OFFSET, NODES_OFFSET + 1] {
        events.push(store(word, 0));
    }
    for line in [0, LOG_OFFSET / LINE, NODES_OFFSET / LINE] {
        events.push(Event::Flush { line });
    }
    events.push(Event::Fence);
    events.extend([store(0, FORM), flush_of(0), Event::Fence]);
    Ok(((), events))
}
