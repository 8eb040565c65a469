//! The proved code against the model on damaged pools and on rubbish, and on slices, lists and marks of every length.

use crate::model::events::LIST_WORDS;
use crate::model::header::{FORM, LOG_OFFSET, NODES_OFFSET, NODE_WORDS};
use crate::model::Outcome;
use crate::support::damage::{damage, ODD_NUMBERS};
use crate::support::every::{every_call, Met};
use crate::support::grow::grown_pool;
use crate::support::{both, each_seed, rubbish};

#[test]
fn damaged_pools() {
    let mut met = Met::default();
    each_seed("damaged_pools", 1500, |random| {
        let capacity = random.between(1, 60);
        let more = random.place(10);
        let grown = grown_pool(capacity, more, random).proved;
        for _ in 0..20 {
            let mut pool = grown.clone();
            for _ in 0..random.between(1, 3) {
                damage(&mut pool, random);
            }
            every_call(&mut pool, 4, &mut met, random);
        }
    });
    met.assert_met("put", "new, replaced, split, 1, 2, 3, 4, 5");
    met.assert_met("delete", "removed, absent, 1, 2, 3, 4");
    met.assert_met("fetch", "found, absent, 2, 3, 4");
    met.assert_met("check", "sound, fault, fault 0, 2, 3, 4, 11");
    met.assert_met("recover", "clean, recovered, 1, 2, 6");
    met.assert_met("format", "formatted, 1, 7, 8");
}

#[test]
fn words_of_rubbish_of_every_length() {
    let mut met = Met::default();
    each_seed("words_of_rubbish_of_every_length", 20, |random| {
        for len in 0..=200 {
            let mut pool = rubbish::words(len, random);
            every_call(&mut pool, 2, &mut met, random);
        }
    });
    met.assert_met("put", "1, 2");
    met.assert_met("delete", "2");
    met.assert_met("fetch", "2");
    met.assert_met("check", "2");
    met.assert_met("recover", "2");
    met.assert_met("format", "formatted");
}

#[test]
fn right_headers_with_rubbish_behind() {
    let mut met = Met::default();
    each_seed("right_headers_with_rubbish_behind", 10_000, |random| {
        let mut pool = rubbish::headed(random);
        every_call(&mut pool, 2, &mut met, random);
    });
    met.assert_met("put", "2, 3, 4");
    met.assert_met("check", "2, 3, 4, 11");
    met.assert_met("recover", "6");
}

#[test]
fn nodes_joined_at_random() {
    let mut met = Met::default();
    each_seed("nodes_joined_at_random", 30_000, |random| {
        let mut pool = rubbish::plausible(random);
        every_call(&mut pool, 3, &mut met, random);
    });
    met.assert_met("put", "new, replaced, split, 4, 5");
    met.assert_met("delete", "removed");
    met.assert_met("fetch", "found");
    met.assert_met("check", "sound, fault, fault 0, 11");
}

#[test]
fn a_header_word_at_a_time() {
    let mut met = Met::default();
    each_seed("a_header_word_at_a_time", 30, |random| {
        let capacity = random.between(1, 20);
        let grown = grown_pool(capacity, 3, random).proved;
        for word in 0..=8 {
            for value in ODD_NUMBERS {
                let mut pool = grown.clone();
                pool[word] = value;
                every_call(&mut pool, 1, &mut met, random);
            }
        }
    });
    met.assert_met("put", "2, 3, 4");
    met.assert_met("check", "fault");
    met.assert_met("recover", "6");
}

#[test]
fn a_slice_shorter_than_its_pool() {
    let mut met = Met::default();
    each_seed("a_slice_shorter_than_its_pool", 20, |random| {
        let capacity = random.between(1, 3);
        let grown = grown_pool(capacity, 4, random).proved;
        for len in 0..=grown.len() {
            let mut pool = grown[..len].to_vec();
            every_call(&mut pool, 1, &mut met, random);
        }
    });
    met.assert_met("put", "2, new");
    met.assert_met("check", "2, sound");
}

/// Capacities about the bound in slices that are long enough, and one whose words are so many that their count runs over.
#[test]
fn capacities_about_the_bound() {
    let cases = [
        (39_999, Ok(Outcome::Absent)),
        (40_000, Ok(Outcome::Absent)),
        (40_001, Err(2)),
        ((1 << 60) + 1, Err(2)),
    ];
    for (capacity, expected) in cases {
        let total = NODE_WORDS.wrapping_mul(capacity).wrapping_add(NODES_OFFSET);
        let mut pool = vec![0; total as usize];
        pool[..8].copy_from_slice(&[FORM, total, LOG_OFFSET, NODES_OFFSET, capacity, 1, 1, 1]);
        assert_eq!(both::fetch(&pool, 5), expected);
        assert_eq!(both::put(&pool, LIST_WORDS, 5, 6).err(), expected.err());
        assert_eq!(both::delete(&pool, LIST_WORDS, 5).err(), expected.err());
        assert_eq!(both::check(&pool, 40_000).err(), expected.err());
        assert_eq!(both::recover(&pool, LIST_WORDS).err(), expected.err());
        assert_eq!(both::format(&pool, LIST_WORDS, capacity).err(), expected.err().map(|_| 7));
    }
}
