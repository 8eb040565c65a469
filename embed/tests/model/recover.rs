//! The log: pairs and the commit word, parts (b) to (e) of a split, and recover.

use super::events::{admit_list, flush_of, store, Event};
use super::header::{admit_pool, LINE, LOG_OFFSET, NODES_OFFSET, WORD_COMMIT, WORD_TOTAL, WORD_USED};
use super::refusal::BAD_LOG;
use super::Planned;

/// The most pairs that the log holds.
pub const PAIRS_MOST: u64 = 31;

/// A word address and the value that goes there.
pub type Pair = (u64, u64);

/// What recover answers.
#[derive(Clone, Copy, Debug, PartialEq, Eq)]
pub enum Recovery {
    Clean,
    Recovered { pairs: u64 },
}

/// The words of pair i of the log, from 0: address and value.
pub fn pair_words(i: u64) -> (u64, u64) {
    (LOG_OFFSET + 1 + 2 * i, LOG_OFFSET + 2 + 2 * i)
}

/// Part (b): the pairs, the flush of every log line that holds any of their words, a fence.
pub fn write_pairs(pairs: &[Pair]) -> Vec<Event> {
    let mut events = Vec::new();
    for (i, (address, value)) in pairs.iter().enumerate() {
        let (first, second) = pair_words(i as u64);
        events.push(store(first, *address));
        events.push(store(second, *value));
    }
    let (first, _) = pair_words(0);
    let (_, last) = pair_words(pairs.len() as u64 - 1);
    for line in first / LINE..=last / LINE {
        events.push(Event::Flush { line });
    }
    events.push(Event::Fence);
    events
}

/// Parts (c) and (e): the commit word, its flush, a fence.
pub fn set_commit(value: u64) -> Vec<Event> {
    let word = WORD_COMMIT as u64;
    vec![store(word, value), flush_of(word), Event::Fence]
}

/// Part (d): each pair's store followed by a flush of its line, then a fence.
pub fn replay(pairs: &[Pair]) -> Vec<Event> {
    let mut events = Vec::new();
    for (address, value) in pairs {
        events.push(store(*address, *value));
        events.push(flush_of(*address));
    }
    events.push(Event::Fence);
    events
}

/// The first pairs of the log as they stand.
fn read_pairs(pool: &[u64], count: u64) -> Vec<Pair> {
    (0..count)
        .map(pair_words)
        .map(|(first, second)| (pool[first as usize], pool[second as usize]))
        .collect()
}

fn address_fits(address: u64, total: u64) -> bool {
    let in_log = (LOG_OFFSET..NODES_OFFSET).contains(&address);
    address >= WORD_USED as u64 && !in_log && address < total
}

/// Recover: clean, or parts (d) and (e) from the log.
pub fn recover(pool: &[u64], list_len: usize) -> Planned<Recovery> {
    admit_list(list_len)?;
    admit_pool(pool)?;
    let count = pool[WORD_COMMIT];
    if count == 0 {
        return Ok((Recovery::Clean, Vec::new()));
    }
    if count > PAIRS_MOST {
        return Err(BAD_LOG);
    }
    let pairs = read_pairs(pool, count);
    if !pairs.iter().all(|(address, _)| address_fits(*address, pool[WORD_TOTAL])) {
        return Err(BAD_LOG);
    }
    let mut events = replay(&pairs);
    events.extend(set_commit(0));
    Ok((Recovery::Recovered { pairs: count }, events))
}
