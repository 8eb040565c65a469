//! Pools grown by puts and deletes: one by the proved code and one by the model, in step, beside a plain map.

use super::both;
use super::random::Random;
use crate::model::events::{carry, write_list, Event, LIST_WORDS};
use crate::model::formed::{map_of, Map};
use crate::model::header::total_of;
use crate::model::{Outcome, Planned};
use ombykape::calls;
use ombykape::medium::{carry_list, Counting};
use std::collections::BTreeMap;

/// What every word holds before format.
pub const BEFORE_FORMAT: u64 = 0xdead_beef_0bad_cafe;

/// How keys follow one another.
#[derive(Clone, Copy, Debug)]
pub enum Keys {
    Rising,
    Falling,
    /// From both ends of a range towards its middle.
    Inward,
    /// Anywhere in all 64 bits.
    Anywhere,
    /// Any of a few.
    Few(u64),
    /// Near one of a few far-off places.
    Clustered,
    /// Near 0 or near the largest number.
    Extreme,
}

pub const ALL_KEYS: [Keys; 8] = [
    Keys::Rising,
    Keys::Falling,
    Keys::Inward,
    Keys::Anywhere,
    Keys::Few(20),
    Keys::Few(500),
    Keys::Clustered,
    Keys::Extreme,
];

impl Keys {
    /// The key of step `i`.
    pub fn key(self, i: u64, random: &mut Random) -> u64 {
        match self {
            Keys::Rising => i * 3,
            Keys::Falling => u64::MAX - i * 3,
            Keys::Inward if i & 1 == 0 => i,
            Keys::Inward => 1_000_000 - i,
            Keys::Anywhere => random.next(),
            Keys::Few(count) => random.below(count),
            Keys::Clustered => random.below(16) * 0x1000_0000_0000_0000 + random.below(64),
            Keys::Extreme if random.percent(50) => random.below(200),
            Keys::Extreme => u64::MAX - random.below(200),
        }
    }
}

/// The same pool twice, and what it should hold.
pub struct Twin {
    pub proved: Vec<u64>,
    pub model: Vec<u64>,
    pub map: BTreeMap<u64, u64>,
}

impl Twin {
    /// A fresh pool in a slice that has some more words.
    pub fn fresh(capacity: u64, more: usize) -> Twin {
        let words = vec![BEFORE_FORMAT; total_of(capacity) as usize + more];
        let mut twin = Twin {
            proved: words.clone(),
            model: words,
            map: BTreeMap::new(),
        };
        let planned = both::format(&twin.proved, LIST_WORDS, capacity);
        twin.carry(both::events_of(&planned));
        twin
    }

    /// Carries events out on both, on the proved code's side in one of its three ways by turns.
    pub fn carry(&mut self, events: &[Event]) {
        let mut list = vec![0; 2 * events.len()];
        write_list(&mut list, events);
        let count = events.len() as u64;
        match self.map.len() % 3 {
            0 => calls::carry_all(&mut self.proved, &list, count),
            1 => (1..=count).for_each(|n| calls::carry_out(&mut self.proved, &list, n).expect("a planned event")),
            _ => carry_list(&mut self.proved, &list, count, &mut Counting::default()).expect("planned events"),
        }
        carry(&mut self.model, events);
    }

    pub fn put(&mut self, key: u64, value: u64) -> Planned<Outcome> {
        let planned = both::put(&self.proved, LIST_WORDS, key, value);
        if planned.is_ok() {
            self.carry(both::events_of(&planned));
            self.map.insert(key, value);
        }
        planned
    }

    pub fn delete(&mut self, key: u64) -> Planned<Outcome> {
        let planned = both::delete(&self.proved, LIST_WORDS, key);
        if planned.is_ok() {
            self.carry(both::events_of(&planned));
            self.map.remove(&key);
        }
        planned
    }

    /// Both pools are the same word for word, well formed, and hold the map.
    pub fn compare(&self) {
        assert!(self.proved == self.model, "the pools differ");
        let map: Map = self.map.iter().map(|(key, value)| (*key, *value)).collect();
        assert_eq!(
            map_of(&self.proved),
            Some(map),
            "map of the pool, then the one that should be"
        );
    }
}

/// Grows a pool until it is refused room or has made so many steps; some of the steps delete or fetch.
pub fn grow(twin: &mut Twin, keys: Keys, steps: u64, deletes: u64, random: &mut Random) -> Vec<usize> {
    let mut counts = Vec::new();
    for i in 0..steps {
        let key = keys.key(i, random);
        let present = twin.map.get(&key).copied();
        assert_eq!(
            both::fetch(&twin.proved, key),
            Ok(present.map_or(Outcome::Absent, Outcome::Found))
        );
        if random.percent(deletes) {
            let expected = if present.is_some() {
                Outcome::Removed
            } else {
                Outcome::Absent
            };
            let key = if random.percent(50) { key } else { some_key(&twin.map, key) };
            let planned = twin.delete(key);
            assert!(planned.is_ok(), "delete of {key} refused, expected {expected:?}");
            continue;
        }
        let expected = if present.is_some() { Outcome::Replaced } else { Outcome::New };
        match twin.put(key, random.next()) {
            Ok((outcome, events)) => {
                assert_eq!(outcome, expected);
                counts.push(events.len());
            }
            Err(number) => {
                assert_eq!(number, 5, "a put into a well-formed pool is refused for want of room only");
                break;
            }
        }
    }
    counts
}

/// A key of the map at or past a key, or this key if there is none.
pub fn some_key(map: &BTreeMap<u64, u64>, key: u64) -> u64 {
    map.range(key..).next().map_or(key, |(key, _)| *key)
}

/// A well-formed pool as it comes from random puts and deletes.
pub fn grown_pool(capacity: u64, more: usize, random: &mut Random) -> Twin {
    let mut twin = Twin::fresh(capacity, more);
    let keys = random.pick(&ALL_KEYS);
    let steps = random.below(capacity * 8 + 2);
    let deletes = random.pick(&[0, 10, 40]);
    grow(&mut twin, keys, steps, deletes, random);
    twin
}
