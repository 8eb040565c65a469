//! Events, the two words of the list that each takes, and what carrying one out does.

use super::header::LINE;
use super::refusal::{NO_EVENT, SHORT_LIST};

/// The fewest words of a list that a planning call takes.
pub const LIST_WORDS: usize = 372;

const STORE: u64 = 1;
const FLUSH: u64 = 2;
const FENCE: u64 = 3;
const KIND_SHIFT: u32 = 56;
const NUMBER_MASK: u64 = (1 << KIND_SHIFT) - 1;

#[derive(Clone, Copy, Debug, PartialEq, Eq)]
pub enum Event {
    Store { word: u64, value: u64 },
    Flush { line: u64 },
    Fence,
}

/// A store to a word.
pub fn store(word: u64, value: u64) -> Event {
    Event::Store { word, value }
}

/// A flush of the line in which a word lies.
pub fn flush_of(word: u64) -> Event {
    Event::Flush { line: word / LINE }
}

/// The two words of an event.
pub fn words_of_event(event: Event) -> [u64; 2] {
    match event {
        Event::Store { word, value } => [STORE << KIND_SHIFT | word, value],
        Event::Flush { line } => [FLUSH << KIND_SHIFT | line, 0],
        Event::Fence => [FENCE << KIND_SHIFT, 0],
    }
}

/// Writes events into a list from its first word; the words past them stay.
pub fn write_list(list: &mut [u64], events: &[Event]) {
    for (i, event) in events.iter().enumerate() {
        let two = words_of_event(*event);
        list[2 * i] = two[0];
        list[2 * i + 1] = two[1];
    }
}

/// Reads the first events of a list.
pub fn read_list(list: &[u64], count: u64) -> Vec<Event> {
    (0..count as usize)
        .map(|i| read_event(list[2 * i], list[2 * i + 1]).expect("kind 1 to 3"))
        .collect()
}

fn read_event(first: u64, value: u64) -> Option<Event> {
    let number = first & NUMBER_MASK;
    match first >> KIND_SHIFT {
        STORE => Some(Event::Store { word: number, value }),
        FLUSH => Some(Event::Flush { line: number }),
        FENCE => Some(Event::Fence),
        _ => None,
    }
}

/// Carries out event n of a list, or refuses.
pub fn carry_out(pool: &mut [u64], list: &[u64], n: u64) -> Result<(), u64> {
    let last = list.len() as u64 / 2;
    if n < 1 || n > last {
        return Err(NO_EVENT);
    }
    let first = 2 * (n as usize) - 2;
    match read_event(list[first], list[first + 1]) {
        Some(Event::Store { word, value }) if word < pool.len() as u64 => {
            pool[word as usize] = value;
            Ok(())
        }
        Some(Event::Flush { line }) if line * LINE < pool.len() as u64 => Ok(()),
        Some(Event::Fence) => Ok(()),
        _ => Err(NO_EVENT),
    }
}

/// Carries out events in order.
pub fn carry(pool: &mut [u64], events: &[Event]) {
    for event in events {
        if let Event::Store { word, value } = event {
            pool[*word as usize] = *value;
        }
    }
}

/// Refusal 1.
pub fn admit_list(list_len: usize) -> Result<(), u64> {
    if list_len < LIST_WORDS {
        return Err(SHORT_LIST);
    }
    Ok(())
}
