//! A run of the whole benchmark.

use crate::counts::{self, Events};
use crate::instructions::{self, Counts};
use crate::peers::{self, Folder};
use crate::race::{Plan, Race};
use std::io;

/// What a run measured.
pub struct Run {
    /// All peers, rising by records.
    pub races: Vec<Race>,
    /// The pool and its yardsticks.
    pub near: Vec<Race>,
    /// The same with `mfence`.
    pub mfence: Vec<Race>,
    pub instructions: Vec<Counts>,
    pub events: Vec<Events>,
    pub allocations: u64,
    /// The random keys that a pool of the largest capacity took, for some rows of them.
    pub held: Vec<usize>,
}

/// The sizes at which cost is measured, and those of them that have tables of their own.
const SIZES: [usize; 6] = [1_000, 3_000, 10_000, 30_000, 100_000, 165_000];
const IN_TABLES: [usize; 2] = [100_000, 165_000];
const ROWS_HELD: std::ops::Range<u64> = 1..6;

/// How long a run is: rounds with all peers at the sizes with tables and at the others, rounds with the yardsticks alone, and the
/// requests of a batch.
pub struct Length {
    rounds: usize,
    growth_rounds: usize,
    near_rounds: usize,
    batch: usize,
}

pub const FULL: Length = Length {
    rounds: 24,
    growth_rounds: 8,
    near_rounds: 150,
    batch: 5_000,
};
pub const QUICK: Length = Length {
    rounds: 3,
    growth_rounds: 2,
    near_rounds: 10,
    batch: 1_000,
};

impl Run {
    pub fn new(length: &Length) -> io::Result<Run> {
        let first = IN_TABLES[0];
        assert!(
            counts::same_words(first, length.batch, 2),
            "the direct tree's words are not the proved pool's"
        );
        let folder = Folder::new("image")?;
        Ok(Run {
            races: SIZES
                .into_iter()
                .map(|records| with_all(records, length))
                .collect::<io::Result<_>>()?,
            near: IN_TABLES.map(|records| with_yardsticks(records, length, false)).into(),
            mfence: IN_TABLES.map(|records| with_yardsticks(records, length, true)).into(),
            instructions: IN_TABLES
                .into_iter()
                .filter_map(|records| instructions::count(records, &folder))
                .collect(),
            events: counts::events(first, length.batch),
            allocations: counts::allocations(first, length.batch),
            held: counts::held(ROWS_HELD),
        })
    }

    /// The races with all peers that have tables of their own.
    pub fn in_tables(&self) -> impl Iterator<Item = &Race> {
        self.races.iter().filter(|race| IN_TABLES.contains(&race.plan.records))
    }
}

fn with_all(records: usize, length: &Length) -> io::Result<Race> {
    eprintln!("all peers, {records} records");
    let rounds = if IN_TABLES.contains(&records) {
        length.rounds
    } else {
        length.growth_rounds
    };
    let folder = Folder::new(&records.to_string())?;
    Ok(Race::run(
        Plan {
            records,
            rounds,
            batch: length.batch,
        },
        peers::all(&folder),
    ))
}

fn with_yardsticks(records: usize, length: &Length, mfence: bool) -> Race {
    eprintln!(
        "the pool and its yardsticks, {records} records{}",
        if mfence { ", mfence" } else { "" }
    );
    Race::run(
        Plan {
            records,
            rounds: length.near_rounds,
            batch: length.batch,
        },
        peers::near(mfence),
    )
}
