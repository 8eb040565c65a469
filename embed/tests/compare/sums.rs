//! The sums that document 01 has done by hand, on the proved code and on the model.

use crate::model::check::Checked;
use crate::model::events::{read_list, Event, LIST_WORDS};
use crate::model::node::{key_word, start_of};
use crate::model::Outcome;
use crate::support::both;
use crate::support::grow::Twin;
use ombykape::{calls, Request, Turned};

/// A pool with 10, 20, .. 70 put in rising order.
fn seven(capacity: u64) -> Twin {
    let mut twin = Twin::fresh(capacity, 0);
    for key in 1..=7 {
        let planned = twin.put(key * 10, key).expect("room");
        assert_eq!((planned.0, planned.1.len()), (Outcome::New, 7));
    }
    twin
}

fn slot_of(twin: &Twin, k: u64) -> u64 {
    twin.proved[start_of(k) as usize]
}

/// How many pairs a split writes: the value that its first store to the commit word has.
fn pairs_of(events: &[Event]) -> u64 {
    let commits = events.iter().filter_map(|event| match event {
        Event::Store { word: 8, value } => Some(*value),
        _ => None,
    });
    commits.clone().next().expect("a split")
}

#[test]
fn seven_keys_in_rising_order() {
    assert_eq!(slot_of(&seven(3), 1), 0x0605040302010007);
}

#[test]
fn delete_30_then_put_35() {
    let mut twin = seven(3);
    assert_eq!(twin.delete(30).expect("sound").0, Outcome::Removed);
    assert_eq!(slot_of(&twin, 1), 0x0006050403010006);
    twin.put(35, 0).expect("room");
    assert_eq!(slot_of(&twin, 1), 0x0605040302010007);
    assert_eq!(twin.proved[key_word(1, 2) as usize], 35);
}

#[test]
fn put_80_into_the_full_leaf() {
    let mut twin = seven(3);
    let (_, events) = twin.put(80, 8).expect("room");
    assert_eq!((events.len(), pairs_of(&events)), (47, 5));
    assert_eq!((slot_of(&twin, 1), slot_of(&twin, 2)), (0x0302010004, 0x0302010004));
    assert_eq!((twin.proved[6], twin.proved[start_of(3) as usize + 2]), (3, 50));
    assert_eq!(both::check(&twin.proved, 3), Ok(Checked::Sound { nodes: 3, records: 8 }));
    twin.compare();
}

#[test]
fn put_5_into_the_full_leaf() {
    let mut twin = seven(3);
    let (_, events) = twin.put(5, 8).expect("room");
    assert_eq!((events.len(), pairs_of(&events)), (55, 7));
    assert_eq!((slot_of(&twin, 1), twin.proved[start_of(3) as usize + 2]), (0x0201000304, 40));
    twin.compare();
}

#[test]
fn room_for_a_split() {
    let mut twin = seven(2);
    assert_eq!(twin.put(80, 8), Err(5));
    assert_eq!(twin.put(70, 8).expect("a key that is there").1.len(), 3);
    assert!(seven(3).put(80, 8).is_ok());
}

#[test]
fn capacities_and_lengths() {
    assert_eq!(both::format(&[0; 88], LIST_WORDS, 0), Err(7));
    assert_eq!(both::format(&[0; 88], LIST_WORDS, 40_001), Err(7));
    assert_eq!(both::format(&[0; 87], LIST_WORDS, 1), Err(8));
    assert_eq!(both::format(&[0; 88], LIST_WORDS, 1).expect("formatted").1.len(), 20);
    assert_eq!(both::put(&seven(2).proved, 371, 1, 1), Err(1));
}

#[test]
fn one_desk_is_served_by_the_next_turn() {
    let mut pool = seven(2).proved;
    let mut list = vec![0; LIST_WORDS];
    let mut desks = [ombykape::Desk::FRESH];
    calls::submit(&mut desks, 1, Request::Put(15, 1)).expect("an empty desk");
    let turn = calls::turn(&mut pool, &mut list, &mut desks, 0).expect("a turn");
    assert_eq!((turn.member, turn.last, turn.events), (1, 1, 0));
    assert_eq!(turn.turned, Turned::Served(Err(ombykape::Refusal::NoRoom)));
    calls::submit(&mut desks, 1, Request::Delete(20)).expect("an empty desk");
    let turn = calls::turn(&mut pool, &mut list, &mut desks, 1).expect("a turn");
    assert_eq!((turn.member, turn.last, turn.events), (1, 1, 3));
    assert_eq!(turn.turned, Turned::Served(Ok(ombykape::Outcome::Removed)));
    assert_eq!(read_list(&list, 3).last(), Some(&Event::Fence));
}
