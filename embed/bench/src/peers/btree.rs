//! The map of the standard library, which keeps nothing at a cut.

use crate::peer::Peer;
use std::collections::BTreeMap;

#[derive(Default)]
pub struct Tree {
    map: BTreeMap<u64, u64>,
}

impl Peer for Tree {
    #[inline(always)]
    fn get(&mut self, key: u64) -> Option<u64> {
        self.map.get(&key).copied()
    }

    #[inline(always)]
    fn put(&mut self, key: u64, value: u64) {
        self.map.insert(key, value);
    }

    #[inline(always)]
    fn delete(&mut self, key: u64) -> bool {
        self.map.remove(&key).is_some()
    }
}
