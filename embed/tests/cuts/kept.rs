//! Puts, deletes, turns and formats cut behind each of their events, by the rule of loss, and the recoveries after them cut
//! too: all memories that a cut may leave where they are few, otherwise some of them. Each is accepted, sound, and holds the map
//! before or after, as document 01 says for each event.

use crate::model::events::{carry, read_list, LIST_WORDS};
use crate::model::formed::{map_of, with, without, Map};
use crate::model::header::{WORD_COMMIT, WORD_ROOT, WORD_USED};
use crate::model::loss::all_safe;
use crate::support::changes::{deciding, delete_of, put_of, split_of};
use crate::support::cut::{memories, planned_recovery, Change, Found, Nested, PerCut};
use crate::support::grow::{grown_pool, some_key, Keys};
use crate::support::random::Random;
use crate::support::{each_seed, rubbish};
use ombykape::{calls, Desk, Request};

/// How much of a change's cuts is tried: the memories of each, and the cuts of the recovery, of the recovery of this, and on.
struct Effort {
    memories: u64,
    nested: &'static [Nested],
}

const fn nested(cuts: usize, memories: u64) -> Nested {
    Nested { cuts, memories }
}

/// All memories of up to ten words, all cuts of the recovery, and some of its recovery.
const THOROUGH: Effort = Effort {
    memories: 1024,
    nested: &[nested(80, 6), nested(2, 3)],
};
/// Some memories, and recoveries cut up to three deep.
const SOME: Effort = Effort {
    memories: 24,
    nested: &[nested(4, 4), nested(2, 3), nested(1, 2)],
};
const LESS: Effort = Effort {
    memories: 12,
    nested: &[nested(2, 2), nested(1, 2)],
};
const FEW: Effort = Effort {
    memories: 4,
    nested: &[nested(1, 2)],
};

/// Before the deciding store the map before only, until its fence either, then the map after only; at the end all is safe.
fn assert_kept(change: &Change, cuts: &[PerCut]) {
    let decides = deciding(&change.events);
    for (n, per_cut) in cuts.iter().enumerate() {
        let found = (per_cut.before > 0, per_cut.after > 0);
        let expected = match n {
            _ if n < decides => (true, false),
            _ if n < decides + 2 => (true, true),
            _ => (false, true),
        };
        assert_eq!(
            found, expected,
            "before and after, found behind event {n} of {:?}",
            change.events
        );
        assert_eq!(
            (per_cut.neither, per_cut.no_pool),
            (0, 0),
            "behind event {n} of {:?}",
            change.events
        );
    }
    assert!(
        all_safe(&change.start, &change.events),
        "a word is not safe after the last event"
    );
}

/// Surveys a change, asserts that it is kept, and answers how many memories were tried.
fn keep(change: &Change, effort: &Effort, random: &mut Random) -> u64 {
    let cuts = change.survey(effort.memories, effort.nested, random);
    assert_kept(change, &cuts);
    cuts.iter().map(PerCut::tried).sum()
}

#[test]
fn puts_and_deletes_of_grown_pools() {
    let mut tried = 0;
    each_seed("puts_and_deletes_of_grown_pools", 300, |random| {
        let capacity = random.between(1, 12);
        let twin = grown_pool(capacity, random.place(3), random);
        for _ in 0..3 {
            let near = if random.percent(50) {
                random.below(500)
            } else {
                random.next()
            };
            let present = some_key(&twin.map, near);
            if twin.map.contains_key(&present) {
                tried += keep(&put_of(&twin.proved, present, !twin.map[&present]), &SOME, random);
                tried += keep(&delete_of(&twin.proved, present), &SOME, random);
            }
            let absent = (near..).find(|key| !twin.map.contains_key(key)).expect("a key");
            if calls::put(&twin.proved, &mut [0; LIST_WORDS], absent, 1).is_ok() {
                tried += keep(&put_of(&twin.proved, absent, random.next()), &SOME, random);
            }
        }
    });
    println!("{tried} memories");
}

#[test]
fn splits_of_one_level() {
    let mut tried = 0;
    each_seed("splits_of_one_level", 3, |random| {
        tried += keep(&split_of(1, true, random), &THOROUGH, random);
        tried += keep(&split_of(1, false, random), &THOROUGH, random);
    });
    println!("{tried} memories");
}

#[test]
fn splits_of_two_levels() {
    let mut tried = 0;
    each_seed("splits_of_two_levels", 12, |random| {
        tried += keep(&split_of(2, true, random), &SOME, random);
        tried += keep(&split_of(2, false, random), &SOME, random);
    });
    println!("{tried} memories");
}

#[test]
fn splits_of_three_and_four_levels() {
    let mut tried = 0;
    each_seed("splits_of_three_and_four_levels", 8, |random| {
        for levels in 3..=4 {
            tried += keep(&split_of(levels, true, random), &LESS, random);
            tried += keep(&split_of(levels, false, random), &LESS, random);
        }
    });
    println!("{tried} memories");
}

#[test]
fn splits_of_five_to_seven_levels() {
    let mut tried = 0;
    each_seed("splits_of_five_to_seven_levels", 1, |random| {
        tried += keep(&split_of(5, false, random), &FEW, random);
        tried += keep(&split_of(6, true, random), &FEW, random);
        tried += keep(&split_of(7, false, random), &FEW, random);
    });
    println!("{tried} memories");
}

/// A cut in a turn is read from the pool handed in and the events that the turn leaves in the list.
#[test]
fn turns() {
    let mut tried = 0;
    each_seed("turns", 300, |random| {
        let twin = grown_pool(random.between(1, 6), 0, random);
        let key = random.below(500);
        if twin.map.contains_key(&key) || calls::put(&twin.proved, &mut [0; LIST_WORDS], key, 1).is_err() {
            return;
        }
        let mut desks = [Desk::FRESH; 2];
        calls::submit(&mut desks, 2, Request::Put(key, 1)).expect("an empty desk");
        let (mut pool, mut list) = (twin.proved.clone(), [0; LIST_WORDS]);
        let turn = calls::turn(&mut pool, &mut list, &mut desks, 0).expect("a turn");
        let before = map_of(&twin.proved).expect("a well-formed pool");
        let after = with(&before, key, 1);
        assert_eq!(map_of(&pool).as_ref(), Some(&after));
        let change = Change::new(&twin.proved, read_list(&list, turn.events), Some(before), Some(after));
        tried += keep(&change, &SOME, random);
    });
    println!("{tried} memories");
}

/// What stood there before a format: zeros, rubbish, a pool, or a pool with a change unfinished.
fn stood_there(random: &mut Random) -> Vec<u64> {
    match random.below(4) {
        0 => vec![0; 120],
        1 => rubbish::words(120, random),
        2 => grown_pool(3, 0, random).proved,
        _ => {
            let change = split_of(1, true, random);
            let mut pool = change.start.clone();
            carry(&mut pool, &change.events[..deciding(&change.events) + 8]);
            assert_ne!(pool[WORD_COMMIT], 0);
            pool
        }
    }
}

/// To event 2 what stood there or no pool, to 17 no pool, to 19 no pool or the empty one, then this.
fn is_lawful_format(n: usize, found: Found, untouched: bool) -> bool {
    match n {
        0..=2 => untouched || found == Found::NoPool,
        3..=17 => found == Found::NoPool,
        18..=19 => matches!(found, Found::NoPool | Found::After),
        _ => found == Found::After,
    }
}

#[test]
fn formats() {
    each_seed("formats", 300, |random| {
        let start = stood_there(random);
        let mut list = [0; LIST_WORDS];
        let events = calls::format(&start, &mut list, random.between(1, 3)).expect("room");
        let change = Change::new(&start, read_list(&list, events), None, Some(Map::new()));
        assert_eq!(change.events.len(), 20);
        assert!(all_safe(&start, &change.events));
        for n in 0..=20 {
            for memory in memories(&start, &change.events[..n], 600, random) {
                let found = change.judge(&memory);
                assert!(is_lawful_format(n, found, memory == start), "{found:?} behind event {n}");
            }
        }
    });
}

/// A recovery that tests root against used before it replays would refuse some memory that a cut leaves.
#[test]
fn a_cut_can_leave_root_and_used_apart() {
    let mut random = Random::from_seed(0);
    let change = split_of(1, true, &mut random);
    let apart = (0..=change.events.len()).any(|n| {
        let memories = memories(&change.start, &change.events[..n], 1024, &mut random);
        memories
            .iter()
            .any(|memory| memory[WORD_COMMIT] != 0 && memory[WORD_ROOT] > memory[WORD_USED])
    });
    assert!(apart);
}

/// A pool that lives through change after change, each cut somewhere and recovered, the recovery cut too.
#[test]
fn a_life_of_cuts() {
    each_seed("a_life_of_cuts", 600, |random| {
        let mut twin = grown_pool(random.between(2, 40), 0, random);
        let mut map = map_of(&twin.proved).expect("a well-formed pool");
        for i in 0..100 {
            let key = Keys::Few(300).key(i, random);
            let put = random.percent(75);
            if put && calls::put(&twin.proved, &mut [0; LIST_WORDS], key, i).is_err() {
                continue;
            }
            let change = if put {
                put_of(&twin.proved, key, i)
            } else {
                delete_of(&twin.proved, key)
            };
            let later = if put { with(&map, key, i) } else { without(&map, key) };
            twin.proved = cut_once(&change, random);
            let found = map_of(&twin.proved).expect("a well-formed pool");
            assert!(found == map || found == later);
            map = found;
        }
    });
}

/// The pool after a cut anywhere in a change, and up to three more in the recoveries.
fn cut_once(change: &Change, random: &mut Random) -> Vec<u64> {
    let mut events = change.events.clone();
    let mut memory = change.start.clone();
    for _ in 0..random.between(1, 4) {
        let n = random.place(events.len() + 1);
        let mut found = memories(&memory, &events[..n], 8, random);
        memory = found.swap_remove(random.place(found.len()));
        events = planned_recovery(&memory);
    }
    carry(&mut memory, &events);
    memory
}
