//! The split of a full leaf and of the full nodes above it.

use super::descend::Step;
use super::events::{flush_of, store, Event};
use super::header::{Header, HEIGHT_MOST, LINE, WORD_HEIGHT, WORD_ROOT, WORD_USED};
use super::node::{key_word, lowest_not_in, slot_word, start_of, value_word, Node};
use super::recover::{replay, set_commit, write_pairs, Pair};
use super::refusal::{DAMAGED, NO_ROOM};

/// How many of the eight records stay.
const STAYING: usize = 4;

/// A record of a node that splits: its entry (none for the new record), key, and value or child.
type Record = (Option<usize>, u64, u64);

/// What a split makes: stores of new nodes, pairs for old ones, and the record that goes up.
struct Level {
    node_events: Vec<Event>,
    pairs: Vec<Pair>,
    up: (u64, u64),
}

/// All events of a put into a full leaf, or refusal 5, or 4 for eight levels.
pub fn split(header: Header, steps: &[Step], key: u64, value: u64) -> Result<Vec<Event>, u64> {
    let full = steps.iter().rev().take_while(|step| step.node.is_full()).count();
    let new_root = full == steps.len();
    let needed = full as u64 + if new_root { 1 } else { 0 };
    if needed > header.capacity - header.used {
        return Err(NO_ROOM);
    }
    if full as u64 == HEIGHT_MOST {
        return Err(DAMAGED);
    }
    let mut events = Vec::new();
    let mut pairs = Vec::new();
    let mut record = (key, value);
    for i in 0..full {
        let step = &steps[steps.len() - 1 - i];
        let level = split_level(step, i == 0, header.used + 1 + i as u64, record);
        events.extend(level.node_events);
        pairs.extend(level.pairs);
        record = level.up;
    }
    if new_root {
        events.extend(new_node(header.used + needed, header.root, &[record]));
    } else {
        pairs.extend(into_parent(&steps[steps.len() - 1 - full], record));
    }
    pairs.push((WORD_USED as u64, header.used + needed));
    if new_root {
        pairs.push((WORD_ROOT as u64, header.used + needed));
        pairs.push((WORD_HEIGHT as u64, header.height + 1));
    }
    events.extend(through_log(&pairs));
    Ok(events)
}

/// Parts (b) to (e).
pub fn through_log(pairs: &[Pair]) -> Vec<Event> {
    let mut events = write_pairs(pairs);
    events.extend(set_commit(pairs.len() as u64));
    events.extend(replay(pairs));
    events.extend(set_commit(0));
    events
}

/// The records of a full node with the new one among them, in rising order of key.
fn with_new(node: &Node, record: (u64, u64)) -> Vec<Record> {
    let mut records: Vec<Record> = node
        .named()
        .iter()
        .map(|i| (Some(*i), node.entries[*i].0, node.entries[*i].1))
        .collect();
    let place = records.iter().filter(|other| other.1 < record.0).count();
    records.insert(place, (None, record.0, record.1));
    records
}

/// Splits one node: the lower four stay; in a leaf the upper four go to the new one, in an inner node the fifth goes up.
fn split_level(step: &Step, leaf: bool, new: u64, record: (u64, u64)) -> Level {
    let records = with_new(&step.node, record);
    let (lower, upper) = records.split_at(STAYING);
    let upper: Vec<(u64, u64)> = upper.iter().map(|(_, key, value)| (*key, *value)).collect();
    let mut pairs = Vec::new();
    let kept: Vec<usize> = lower.iter().filter_map(|record| record.0).collect();
    let free = lowest_not_in(&kept);
    let named: Vec<usize> = lower.iter().map(|record| record.0.unwrap_or(free)).collect();
    if kept.len() < STAYING {
        pairs.push((key_word(step.number, free), record.0));
        pairs.push((value_word(step.number, free), record.1));
    }
    if leaf {
        pairs.push((start_of(step.number) + 1, new));
    }
    pairs.push((start_of(step.number), slot_word(&named)));
    let node_events = if leaf {
        new_node(new, step.node.link, &upper)
    } else {
        new_node(new, upper[0].1, &upper[1..])
    };
    Level {
        node_events,
        pairs,
        up: (upper[0].0, new),
    }
}

/// Part (a) for one new node: slot word, word 1, entries, then flushes of the lines stored to.
fn new_node(number: u64, link: u64, records: &[(u64, u64)]) -> Vec<Event> {
    let named: Vec<usize> = (0..records.len()).collect();
    let start = start_of(number);
    let mut events = vec![store(start, slot_word(&named)), store(start + 1, link)];
    for (i, (key, value)) in records.iter().enumerate() {
        events.push(store(key_word(number, i), *key));
        events.push(store(value_word(number, i), *value));
    }
    let last = value_word(number, records.len() - 1);
    for line in start / LINE..=last / LINE {
        events.push(flush_of(line * LINE));
    }
    events
}

/// The pairs of the parent that has room for the record that goes up.
fn into_parent(step: &Step, record: (u64, u64)) -> Vec<Pair> {
    let entry = step.node.lowest_unused();
    let place = step.node.keys().iter().filter(|other| **other < record.0).count();
    let mut named = step.node.named();
    named.insert(place, entry);
    vec![
        (key_word(step.number, entry), record.0),
        (value_word(step.number, entry), record.1),
        (start_of(step.number), slot_word(&named)),
    ]
}
