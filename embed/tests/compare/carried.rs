//! Carrying out, by the proved code and by the crate, against the model: planned lists and rubbish.

use crate::model;
use crate::model::events::{write_list, LIST_WORDS};
use crate::support::changes::split_of;
use crate::support::random::Random;
use crate::support::{both, each_seed, rubbish};
use ombykape::calls::carry_all;
use ombykape::medium::{carry_list, Counting};
use ombykape::Refusal;

#[test]
fn lists_of_rubbish() {
    each_seed("lists_of_rubbish", 20_000, |random| {
        let pool_len = random.place(40);
        let mut pool = rubbish::words(pool_len, random);
        let list: Vec<u64> = (0..random.place(14)).map(|_| event_word(pool_len as u64, random)).collect();
        for n in 0..=list.len() as u64 / 2 + 2 {
            both::carry_out(&mut pool, &list, n).ok();
        }
        for n in [u64::MAX, 1 << 63, (1 << 63) + 1, 1 << 32, LIST_WORDS as u64] {
            both::carry_out(&mut pool, &list, n).ok();
        }
        let events = random.below(list.len() as u64 + 2);
        carry_many(&pool, &list, events);
    });
}

/// A word that may be the first of an event: its kind about right, its number near the end of the pool or far off.
fn event_word(pool_len: u64, random: &mut Random) -> u64 {
    let kind = if random.percent(90) {
        random.between(1, 3)
    } else {
        random.below(256)
    };
    let number = match random.below(5) {
        0 => random.below(pool_len + 2),
        1 => random.below(pool_len / 8 + 2),
        2 => (pool_len + random.below(3)).saturating_sub(1),
        3 => (1 << 56) / 8 + random.below(3),
        _ => random.next() >> 8,
    };
    kind << 56 | number
}

/// Carrying out many at once: an event that cannot be is passed over by `carry_all` and stops `carry_list`.
fn carry_many(pool: &[u64], list: &[u64], events: u64) {
    let (mut all, mut expected) = (pool.to_vec(), pool.to_vec());
    carry_all(&mut all, list, events);
    (1..=events).for_each(|n| model::events::carry_out(&mut expected, list, n).unwrap_or(()));
    assert!(all == expected, "carry_all");
    let (mut stopped, mut expected) = (pool.to_vec(), pool.to_vec());
    let answer = carry_list(&mut stopped, list, events, &mut Counting::default());
    let expected_answer = (1..=events).try_for_each(|n| model::events::carry_out(&mut expected, list, n));
    assert_eq!(answer.map_err(Refusal::number), expected_answer);
    assert!(stopped == expected, "carry_list");
}

/// A planned list, cut short anywhere.
#[test]
fn planned_lists() {
    each_seed("planned_lists", 40, |random| {
        let change = split_of(random.between(1, 2) as usize, true, random);
        let mut list = vec![0; LIST_WORDS];
        write_list(&mut list, &change.events);
        for events in 0..=change.events.len() {
            carry_many(&change.start, &list, events as u64);
        }
    });
}
