//! Wrong orders of events, the ones that document 01 names and others, are caught by the survey of cuts: the tests that find
//! the right order kept are able to fail.

use crate::model::events::{flush_of, store, Event};
use crate::model::loss::all_safe;
use crate::model::recover::Pair;
use crate::model::split::through_log;
use crate::support::changes::{deciding, delete_of, put_of, split_of};
use crate::support::cut::{memories, Change, Found};
use crate::support::each_seed;
use crate::support::grow::Twin;
use crate::support::random::Random;
use crate::support::tall::{build, Shape};

/// How many memories are tried of a cut that may leave more.
const MEMORIES: u64 = 64;

/// A pool with a record or more in its leaf.
fn few_records() -> Vec<u64> {
    let mut twin = Twin::fresh(4, 0);
    for key in [10, 20, 30] {
        twin.put(key, key + 1).expect("room");
    }
    twin.proved
}

/// The same change with other events.
fn with_events(change: &Change, events: Vec<Event>) -> Change {
    Change::new(&change.start, events, change.before.clone(), change.after.clone())
}

/// Whether some cut leaves a map that is neither the one before nor the one after.
fn is_caught(change: &Change, random: &mut Random) -> bool {
    (0..=change.events.len()).any(|n| {
        let found = memories(&change.start, &change.events[..n], MEMORIES, random);
        found.iter().any(|memory| change.judge(memory) == Found::Neither)
    })
}

#[test]
fn the_slot_word_stored_before_the_entry_is_fenced() {
    let mut random = Random::from_seed(0);
    let right = put_of(&few_records(), 15, 16);
    assert!(!is_caught(&right, &mut random));
    let mut unfenced = right.events.clone();
    assert_eq!(unfenced.remove(3), Event::Fence);
    assert!(is_caught(&with_events(&right, unfenced), &mut random));
    let mut slot_first = right.events.clone();
    let slot = slot_first.remove(4);
    slot_first.insert(0, slot);
    assert!(is_caught(&with_events(&right, slot_first), &mut random));
}

#[test]
fn the_commit_word_shares_the_fence_of_the_pairs() {
    each_seed("the_commit_word_shares_the_fence_of_the_pairs", 4, |random| {
        let right = split_of(random.between(1, 3) as usize, true, random);
        let mut shared = right.events.clone();
        let fence = deciding(&shared) - 2;
        assert_eq!(shared.remove(fence), Event::Fence);
        assert!(is_caught(&with_events(&right, shared), random));
    });
}

/// The pairs that a split writes to the log, and the events before them.
fn pairs_of(events: &[Event]) -> (Vec<Event>, Vec<Pair>) {
    let first = events
        .iter()
        .position(|event| matches!(event, Event::Store { word: 9, .. }))
        .expect("a split");
    let mut stored = Vec::new();
    for event in &events[first..] {
        match event {
            Event::Store { value, .. } => stored.push(*value),
            _ => break,
        }
    }
    (
        events[..first].to_vec(),
        stored.chunks(2).map(|pair| (pair[0], pair[1])).collect(),
    )
}

#[test]
fn a_staying_record_written_straight_in() {
    each_seed("a_staying_record_written_straight_in", 4, |random| {
        let shape = Shape {
            height: 1,
            full: 1,
            places: Vec::new(),
            below: random.place(4),
            spare: 2,
            whole: true,
        };
        let tall = build(&shape, random);
        let right = put_of(&tall.pool, tall.key, 99);
        let (mut events, mut pairs) = pairs_of(&right.events);
        for (address, value) in pairs.drain(..2) {
            events.extend([store(address, value), flush_of(address)]);
        }
        events.extend(through_log(&pairs));
        assert!(is_caught(&with_events(&right, events), random));
    });
}

/// Whether a later flush of the same line makes up for this one before the next fence.
fn is_made_up_for(events: &[Event], i: usize) -> bool {
    let later = events[i + 1..].iter().take_while(|event| **event != Event::Fence);
    later.filter(|event| **event == events[i]).count() > 0
}

/// Leaves out each flush and each fence by turns: some cut shows it, or not every word is safe at the end.
fn each_left_out(right: &Change, random: &mut Random) {
    for i in 0..right.events.len() {
        let event = right.events[i];
        if matches!(event, Event::Store { .. }) || is_made_up_for(&right.events, i) {
            continue;
        }
        let mut events = right.events.clone();
        events.remove(i);
        let wrong = with_events(right, events);
        let caught = is_caught(&wrong, random) || !all_safe(&wrong.start, &wrong.events);
        assert!(caught, "event {} left out, {event:?}, is not seen", i + 1);
    }
}

#[test]
fn every_flush_and_every_fence_is_needed() {
    each_seed("every_flush_and_every_fence_is_needed", 1, |random| {
        each_left_out(&put_of(&few_records(), 15, 16), random);
        each_left_out(&put_of(&few_records(), 20, 16), random);
        each_left_out(&delete_of(&few_records(), 20), random);
        for levels in 1..=3 {
            each_left_out(&split_of(levels, true, random), random);
            each_left_out(&split_of(levels, false, random), random);
        }
    });
}
