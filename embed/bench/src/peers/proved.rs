//! The proved pool, by the calls that its users make.

use crate::peer::Peer;
use ombykape::medium::Medium;
use ombykape::{Outcome, Pool, CAPACITY_MOST};

pub struct Proved<M: Medium> {
    pub pool: Pool<'static, M>,
}

impl<M: Medium> Proved<M> {
    /// An empty pool of the largest capacity.
    pub fn new(words: &'static mut [u64], medium: M) -> Self {
        Proved {
            pool: Pool::format(words, medium, CAPACITY_MOST).expect("the words hold the largest pool"),
        }
    }

    /// The pool that the words hold.
    pub fn over(words: &'static mut [u64], medium: M) -> Self {
        let mut marks = vec![0; CAPACITY_MOST as usize];
        Proved {
            pool: Pool::open(words, &mut marks, medium).expect("the words hold a pool"),
        }
    }
}

impl<M: Medium> Peer for Proved<M> {
    #[inline(always)]
    fn get(&mut self, key: u64) -> Option<u64> {
        self.pool.get(key).expect("no fetch is refused here")
    }

    #[inline(always)]
    fn put(&mut self, key: u64, value: u64) {
        self.pool.put(key, value).expect("no put is refused here");
    }

    #[inline(always)]
    fn delete(&mut self, key: u64) -> bool {
        self.pool.delete(key).expect("no delete is refused here").outcome == Outcome::Removed
    }
}
