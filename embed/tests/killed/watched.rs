//! The parent's side: a pool file, the model's words of it, and what a kill left.

use crate::child::{open_when_free, request, DIARY, POOL, SEED, WAY};
use crate::model::events::{carry, Event, LIST_WORDS};
use crate::model::formed::{map_of, Map};
use crate::model::header::WORD_COMMIT;
use crate::model::{put, recover};
use crate::support::changes::deciding;
use crate::support::run_of;
use ombykape::PoolFile;
use std::fs;
use std::ops::Range;
use std::path::{Path, PathBuf};
use std::process::{Child, Stdio};

/// A pool file, its diary, and the words that the model holds of it.
pub struct Watched {
    pub path: PathBuf,
    pub diary: PathBuf,
    pub words: Vec<u64>,
}

/// How a kill was found.
#[derive(Debug, Default)]
pub struct Counts {
    pub kills: u64,
    /// Some of a change's events carried out, and not all.
    pub within_a_change: u64,
    /// A commit word that was not 0.
    pub committed: u64,
    /// The same, left by a recovery that was itself killed.
    pub in_recovery: u64,
    pub requests: u64,
}

/// The step that was in flight: the words before it, its events, and how many of these were carried out.
pub struct InFlight {
    pub step: u64,
    pub start: Vec<u64>,
    pub events: Vec<Event>,
    pub done: usize,
}

/// The events of a child's step: step 0 is the recovery, step i its i-th request.
fn planned(words: &[u64], seed: u64, step: u64) -> Vec<Event> {
    if step == 0 {
        return recover::recover(words, LIST_WORDS).expect("a pool").1;
    }
    let planned = match request(seed, step - 1) {
        (key, Some(value)) => put::put(words, LIST_WORDS, key, value),
        (key, None) => put::delete(words, LIST_WORDS, key),
    };
    planned.map_or(Vec::new(), |(_, events)| events)
}

/// A folder in memory where there is one, so that no time goes by for the device: a kill is the same there.
fn folder() -> &'static Path {
    let in_memory = Path::new("/dev/shm");
    if in_memory.is_dir() {
        in_memory
    } else {
        Path::new(env!("CARGO_TARGET_TMPDIR"))
    }
}

fn words_in(path: &Path) -> Vec<u64> {
    let bytes = fs::read(path).expect("a file");
    bytes
        .chunks_exact(8)
        .map(|word| u64::from_le_bytes(word.try_into().expect("eight bytes")))
        .collect()
}

impl Watched {
    pub fn create(name: &str, capacity: u64) -> Watched {
        let path = folder().join(format!("ombykape-{name}-{}.pool", std::process::id()));
        let diary = path.with_extension("diary");
        fs::remove_file(&path).ok();
        let pool = PoolFile::create(&path, capacity).expect("a new pool file");
        let watched = Watched {
            path,
            diary,
            words: pool.words().to_vec(),
        };
        assert_eq!(map_of(&watched.words), Some(Vec::new()));
        watched
    }

    pub fn found(&self) -> Vec<u64> {
        words_in(&self.path)
    }

    pub fn start(&self, seed: u64, way: &str) -> Child {
        fs::write(&self.diary, [0; 8]).expect("a diary");
        let mut command = run_of(std::env::current_exe().expect("this test").as_ref());
        command.args(["--exact", "child", "--nocapture"]).stdout(Stdio::null());
        command
            .env(POOL, &self.path)
            .env(DIARY, &self.diary)
            .env(SEED, seed.to_string())
            .env(WAY, way);
        command.spawn().expect("a child")
    }

    /// Requests begun and requests ended, in one number.
    pub fn noted(&self) -> u64 {
        words_in(&self.diary)[0]
    }

    /// Carries out whole steps.
    pub fn follow(&mut self, seed: u64, steps: Range<u64>) {
        for step in steps {
            let events = planned(&self.words, seed, step);
            carry(&mut self.words, &events);
        }
    }

    /// The step in flight when so many events had been carried out.
    pub fn follow_events(&mut self, seed: u64, stop: u64) -> InFlight {
        let mut left = stop as usize;
        let mut step = 0;
        loop {
            let events = planned(&self.words, seed, step);
            let start = self.words.clone();
            let done = left.min(events.len());
            carry(&mut self.words, &events[..done]);
            left -= done;
            if left == 0 {
                return InFlight {
                    step,
                    start,
                    events,
                    done,
                };
            }
            step += 1;
        }
    }

    /// The step in flight when the file was left as it was found; the model's words become the same.
    pub fn follow_to(&mut self, seed: u64, step: u64, found: &[u64]) -> InFlight {
        let start = self.words.clone();
        let events = planned(&start, seed, step);
        let mut done = 0;
        while self.words != found {
            assert!(done < events.len(), "the file stands at no event's end of step {step}");
            carry(&mut self.words, &events[done..done + 1]);
            done += 1;
        }
        InFlight {
            step,
            start,
            events,
            done,
        }
    }

    /// Opens the file again: recovered as the model recovers it, sound, and holding the map before or after.
    pub fn open_again(&mut self, in_flight: &InFlight) {
        let pool = open_when_free(&self.path);
        let events = planned(&self.words, 0, 0);
        carry(&mut self.words, &events);
        assert!(pool.words() == self.words, "recovered otherwise than by the model");
        let map = map_of(pool.words()).expect("a well-formed pool");
        assert!(map == in_flight.map(), "another map");
        for (key, value) in map.iter().step_by(map.len() / 50 + 1) {
            assert_eq!(pool.get(*key), Ok(Some(*value)));
        }
    }
}

impl Drop for Watched {
    fn drop(&mut self) {
        if !std::thread::panicking() {
            fs::remove_file(&self.path).ok();
            fs::remove_file(&self.diary).ok();
        }
    }
}

impl InFlight {
    /// The map that recovery leads to: the one after the step once the deciding store was carried out, otherwise the one
    /// before it; a recovery finishes what it found.
    fn map(&self) -> Map {
        let decided = self.step == 0 || (!self.events.is_empty() && self.done >= deciding(&self.events));
        let mut words = self.start.clone();
        if decided {
            carry(&mut words, &self.events);
        }
        map_of(&words).expect("a well-formed pool")
    }

    /// Counts how this kill was found.
    pub fn count(&self, words: &[u64], counts: &mut Counts) {
        let within = self.done > 0 && self.done < self.events.len();
        let committed = words[WORD_COMMIT] != 0;
        counts.kills += 1;
        counts.requests += self.step;
        counts.within_a_change += u64::from(within && self.step > 0);
        counts.committed += u64::from(committed);
        counts.in_recovery += u64::from(committed && within && self.step == 0);
    }
}
