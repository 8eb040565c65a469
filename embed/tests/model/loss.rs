//! The rule of loss: what each word may hold after a cut behind the given events.

use super::events::Event;
use super::header::LINE;

/// A word that was stored to and the values that it may hold, the oldest first and the newest last.
#[derive(Clone, Debug, PartialEq, Eq)]
pub struct Held {
    pub word: usize,
    pub values: Vec<u64>,
}

/// What the stored words may hold; every other word holds what it held at the start.
pub fn held(start: &[u64], events: &[Event]) -> Vec<Held> {
    let mut words: Vec<u64> = events.iter().filter_map(stored_word).collect();
    words.sort();
    words.dedup();
    words
        .iter()
        .map(|word| Held {
            word: *word as usize,
            values: values_of(start[*word as usize], events, *word),
        })
        .collect()
}

fn stored_word(event: &Event) -> Option<u64> {
    match event {
        Event::Store { word, .. } => Some(*word),
        _ => None,
    }
}

/// The values of one word: the one at the last flush of its line that a later fence followed, and all stored after that flush.
fn values_of(start: u64, events: &[Event], word: u64) -> Vec<u64> {
    let kept = last_fenced_flush(events, word / LINE).unwrap_or(0);
    let mut values = vec![start];
    for (i, event) in events.iter().enumerate() {
        match event {
            Event::Store { word: other, value } if *other == word && i < kept => values = vec![*value],
            Event::Store { word: other, value } if *other == word => values.push(*value),
            _ => {}
        }
    }
    let mut distinct: Vec<u64> = Vec::new();
    for value in values {
        distinct.retain(|other| *other != value);
        distinct.push(value);
    }
    distinct
}

/// Where the last flush of a line stands that a later fence followed.
fn last_fenced_flush(events: &[Event], line: u64) -> Option<usize> {
    let last_fence = events.iter().rposition(|event| *event == Event::Fence)?;
    events[..last_fence].iter().rposition(|event| *event == Event::Flush { line })
}

/// Whether every word has one value left.
pub fn all_safe(start: &[u64], events: &[Event]) -> bool {
    held(start, events).iter().all(|held| held.values.len() == 1)
}
