//! Put and delete, but for the split of a full leaf.

use super::descend::{entry_of, path};
use super::events::{admit_list, flush_of, store, Event};
use super::header::admit;
use super::node::{key_word, slot_word, start_of, value_word, Node};
use super::split::split;
use super::{Outcome, Planned};

/// Put: replaced, new without a split, or new with one.
pub fn put(pool: &[u64], list_len: usize, key: u64, value: u64) -> Planned<Outcome> {
    admit_list(list_len)?;
    let header = admit(pool)?;
    let steps = path(pool, header, key)?;
    let last = &steps[steps.len() - 1];
    if let Some(i) = entry_of(&last.node, key) {
        let word = value_word(last.number, i);
        return Ok((Outcome::Replaced, vec![store(word, value), flush_of(word), Event::Fence]));
    }
    if last.node.is_full() {
        let events = split(header, &steps, key, value)?;
        return Ok((Outcome::New, events));
    }
    Ok((Outcome::New, into_leaf(last.number, &last.node, key, value)))
}

/// The seven events of a put into a leaf that is not full.
fn into_leaf(k: u64, leaf: &Node, key: u64, value: u64) -> Vec<Event> {
    let entry = leaf.lowest_unused();
    let place = leaf.keys().iter().filter(|other| **other < key).count();
    let mut named = leaf.named();
    named.insert(place, entry);
    vec![
        store(key_word(k, entry), key),
        store(value_word(k, entry), value),
        flush_of(key_word(k, entry)),
        Event::Fence,
        store(start_of(k), slot_word(&named)),
        flush_of(start_of(k)),
        Event::Fence,
    ]
}

/// Delete: removed with three events, or absent with none.
pub fn delete(pool: &[u64], list_len: usize, key: u64) -> Planned<Outcome> {
    admit_list(list_len)?;
    let header = admit(pool)?;
    let steps = path(pool, header, key)?;
    let last = &steps[steps.len() - 1];
    let Some(entry) = entry_of(&last.node, key) else {
        return Ok((Outcome::Absent, Vec::new()));
    };
    let named: Vec<usize> = last.node.named().into_iter().filter(|i| *i != entry).collect();
    let word = start_of(last.number);
    Ok((
        Outcome::Removed,
        vec![store(word, slot_word(&named)), flush_of(word), Event::Fence],
    ))
}
