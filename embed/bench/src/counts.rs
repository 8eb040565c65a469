//! What is counted exactly and takes no clock: stores, flushes and fences, calls of the allocator, and the keys that a pool holds.

use crate::allocation;
use crate::direct::reach::Unchecked;
use crate::keys::{value_of, Asked, Random};
use crate::peer::{Op, Peer};
use crate::peers::{words, Proved, Straight};
use crate::wire::Plain;
use ombykape::medium::Counting;
use ombykape::{Pool, Refusal, CAPACITY_MOST};

/// The least and the most that one request took.
#[derive(Clone, Copy)]
pub struct Range {
    pub least: u64,
    pub most: u64,
}

/// Over many requests of one kind.
pub struct Events {
    pub kind: &'static str,
    pub requests: u64,
    pub stores: Range,
    pub flushes: Range,
    pub fences: Range,
}

/// The kind of a put without a split in a load, and the events that it has at most.
pub const UNSPLIT: &str = "put of a new key, no split";
const UNSPLIT_EVENTS: u64 = 7;

impl Range {
    /// Whether every request took this many.
    pub fn is(self, count: u64) -> bool {
        (self.least, self.most) == (count, count)
    }

    fn with(self, count: u64) -> Range {
        Range {
            least: self.least.min(count),
            most: self.most.max(count),
        }
    }
}

impl Events {
    fn none(kind: &'static str) -> Events {
        let none = Range {
            least: u64::MAX,
            most: 0,
        };
        Events {
            kind,
            requests: 0,
            stores: none,
            flushes: none,
            fences: none,
        }
    }

    fn add(&mut self, before: Counting, after: Counting) {
        self.requests += 1;
        self.stores = self.stores.with(after.stores - before.stores);
        self.flushes = self.flushes.with(after.flushes - before.flushes);
        self.fences = self.fences.with(after.fences - before.fences);
    }
}

/// Stores, flushes and fences of every put of a load, then of each operation of a round on the pool that it leaves.
pub fn events(records: usize, batch: usize) -> Vec<Events> {
    let mut random = Random::new(records as u64);
    let keys = random.row(records);
    let mut proved = Proved::new(words(), Counting::default());
    let (mut unsplit, mut split) = (Events::none(UNSPLIT), Events::none("put of a new key, split"));
    for &key in &keys {
        let before = *proved.pool.medium();
        let answer = proved.pool.put(key, value_of(key, 0)).expect("the pool has room");
        let kind = if answer.events <= UNSPLIT_EVENTS {
            &mut unsplit
        } else {
            &mut split
        };
        kind.add(before, *proved.pool.medium());
    }
    let asked = Asked::new(&mut random, &keys, batch);
    let mut counted = vec![unsplit, split];
    for op in Op::ALL {
        let mut events = Events::none(op.name());
        for key in op.keys(&asked) {
            let before = *proved.pool.medium();
            proved.batch(op, std::slice::from_ref(key), 1);
            events.add(before, *proved.pool.medium());
        }
        counted.push(events);
    }
    counted
}

/// How often the allocator was asked while a pool was filled and every operation ran on it.
pub fn allocations(records: usize, batch: usize) -> u64 {
    let mut random = Random::new(records as u64);
    let keys = random.row(records);
    let asked = Asked::new(&mut random, &keys, batch);
    let mut proved = Proved::new(words(), Plain);
    allocation::during(|| {
        keys.iter().for_each(|&key| proved.put(key, value_of(key, 0)));
        for op in Op::ALL {
            proved.batch(op, op.keys(&asked), 1);
        }
    })
}

/// How many random keys a pool of the largest capacity takes before it refuses one for want of room, for each seed.
pub fn held(seeds: std::ops::Range<u64>) -> Vec<usize> {
    let memory = words();
    let filled = |seed| {
        let mut pool = Pool::format(&mut *memory, Plain, CAPACITY_MOST).expect("the words hold the largest pool");
        let mut random = Random::new(seed);
        let mut count = 0;
        loop {
            match pool.put(random.next(), 1) {
                Ok(_) => count += 1,
                Err(Refusal::NoRoom) => return count,
                Err(refusal) => panic!("a put was refused: {refusal}"),
            }
        }
    };
    seeds.map(filled).collect()
}

/// Whether the direct tree leaves the very words of the proved pool after the same load and rounds.
pub fn same_words(records: usize, batch: usize, rounds: u64) -> bool {
    let mut random = Random::new(records as u64);
    let keys = random.row(records);
    let mut proved = Proved::new(words(), Plain);
    let mut direct = Straight::<Unchecked, _, true>::new(words(), Plain);
    for &key in &keys {
        proved.put(key, value_of(key, 0));
        direct.put(key, value_of(key, 0));
    }
    for round in 1..=rounds {
        let asked = Asked::new(&mut random, &keys, batch);
        for op in Op::ALL {
            assert_eq!(
                proved.batch(op, op.keys(&asked), round),
                direct.batch(op, op.keys(&asked), round)
            );
        }
    }
    proved.pool.words() == direct.tree.words()
}
