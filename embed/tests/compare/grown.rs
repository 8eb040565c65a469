//! The proved code against the model on well-formed pools: grown by random puts and deletes, from one node to some thousands,
//! up to the refusal for want of room.

use crate::model::events::LIST_WORDS;
use crate::model::header::CAPACITY_MOST;
use crate::support::grow::{grow, Keys, Twin, ALL_KEYS};
use crate::support::{both, each_seed};

#[test]
fn pools_of_few_nodes() {
    each_seed("pools_of_few_nodes", 1500, |random| {
        let capacity = random.between(1, 24);
        let mut twin = Twin::fresh(capacity, random.place(20));
        for _ in 0..random.between(1, 4) {
            let keys = random.pick(&ALL_KEYS);
            let deletes = random.pick(&[0, 5, 30, 60]);
            let steps = random.below(capacity * 10);
            grow(&mut twin, keys, steps, deletes, random);
            twin.compare();
            both::check(&twin.proved, capacity as usize + random.place(3)).expect("a well-formed pool");
            both::recover(&twin.proved, LIST_WORDS + random.place(3)).expect("a pool");
        }
    });
}

#[test]
fn pools_of_many_nodes() {
    for (i, keys) in ALL_KEYS.into_iter().enumerate() {
        each_seed("pools_of_many_nodes", 2, |random| {
            let capacity = random.between(400, 3000);
            let mut twin = Twin::fresh(capacity, 0);
            grow(&mut twin, keys, 40_000, random.pick(&[0, 5]), random);
            grow(&mut twin, ALL_KEYS[(i + 3) % ALL_KEYS.len()], 2000, 50, random);
            twin.compare();
            both::check(&twin.proved, capacity as usize).expect("a well-formed pool");
        });
    }
}

#[test]
fn the_largest_pool_by_rising_and_falling_keys() {
    for keys in [Keys::Rising, Keys::Falling] {
        each_seed("the_largest_pool_by_rising_and_falling_keys", 1, |random| {
            let mut twin = Twin::fresh(CAPACITY_MOST, 5);
            grow(&mut twin, keys, 200_000, 0, random);
            assert_eq!(
                both::put(&twin.proved, LIST_WORDS, keys.key(200_001, random), 0).err(),
                Some(5)
            );
            twin.compare();
            both::check(&twin.proved, CAPACITY_MOST as usize).expect("a well-formed pool");
        });
    }
}
