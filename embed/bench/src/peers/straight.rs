//! The direct tree as a peer.

use crate::direct::reach::Reach;
use crate::direct::{Direct, Wire};
use crate::peer::Peer;
use crate::wire::Plain;
use ombykape::{Pool, CAPACITY_MOST};

pub struct Straight<R, W, const CHECKED: bool> {
    pub tree: Direct<'static, R, W, CHECKED>,
}

impl<R: Reach, W: Wire, const CHECKED: bool> Straight<R, W, CHECKED> {
    /// An empty pool of the largest capacity.
    pub fn new(words: &'static mut [u64], wire: W) -> Self {
        Pool::format(words, Plain, CAPACITY_MOST).expect("the words hold the largest pool");
        Self::over(words, wire)
    }

    /// The pool that the words hold.
    pub fn over(words: &'static mut [u64], wire: W) -> Self {
        Straight {
            tree: Direct::new(words, wire),
        }
    }
}

impl<R: Reach, W: Wire, const CHECKED: bool> Peer for Straight<R, W, CHECKED> {
    #[inline(always)]
    fn get(&mut self, key: u64) -> Option<u64> {
        self.tree.fetch(key).expect("no fetch is refused here")
    }

    #[inline(always)]
    fn put(&mut self, key: u64, value: u64) {
        self.tree.put(key, value).expect("no put is refused here");
    }

    #[inline(always)]
    fn delete(&mut self, key: u64) -> bool {
        self.tree.delete(key).expect("no delete is refused here")
    }
}
