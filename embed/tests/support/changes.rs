//! Changes that the proved code plans, to be cut.

use super::cut::Change;
use super::random::Random;
use super::tall::{build, Shape};
use crate::model::events::{read_list, Event, LIST_WORDS};
use crate::model::formed::{map_of, with, without};
use crate::model::header::WORD_COMMIT;
use ombykape::calls;

/// A put, with the events that the proved code plans for it.
pub fn put_of(pool: &[u64], key: u64, value: u64) -> Change {
    let mut list = [0; LIST_WORDS];
    let answer = calls::put(pool, &mut list, key, value).expect("a put that is not refused");
    let before = map_of(pool).expect("a well-formed pool");
    let after = with(&before, key, value);
    Change::new(pool, read_list(&list, answer.events), Some(before), Some(after))
}

/// A delete, likewise.
pub fn delete_of(pool: &[u64], key: u64) -> Change {
    let mut list = [0; LIST_WORDS];
    let answer = calls::delete(pool, &mut list, key).expect("a delete that is not refused");
    let before = map_of(pool).expect("a well-formed pool");
    let after = without(&before, key);
    Change::new(pool, read_list(&list, answer.events), Some(before), Some(after))
}

/// The number of the store that decides: the commit word's in a split, the slot word's or the value's otherwise.
pub fn deciding(events: &[Event]) -> usize {
    let commit = events
        .iter()
        .position(|event| matches!(event, Event::Store { word, .. } if *word as usize == WORD_COMMIT));
    match (commit, events.len()) {
        (Some(place), _) => place + 1,
        (None, 7) => 5,
        (None, 3) => 1,
        (None, count) => panic!("a change of {count} events"),
    }
}

/// A well-formed pool and a key whose put splits so many levels.
pub fn split_of(levels: usize, new_root: bool, random: &mut Random) -> Change {
    let height = if new_root { levels } else { levels + 1 };
    let mut places: Vec<usize> = (1..height).map(|_| random.place(8)).collect();
    if !new_root {
        places[0] = random.place(2);
    }
    let shape = Shape {
        height,
        full: levels,
        places,
        below: random.place(8),
        spare: levels as u64 + 1,
        whole: true,
    };
    let tall = build(&shape, random);
    put_of(&tall.pool, tall.key, random.next())
}
