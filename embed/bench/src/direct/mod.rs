//! The yardstick: document 01's tree written by hand in Rust, with its checks or without, storing, flushing and fencing straight
//! into the pool where the proved code plans a list. Its pools are word for word those of the proved code.

mod change;
mod look;
pub mod reach;
mod split;
#[cfg(test)]
mod tests;

pub use change::Wire;

use change::Change;
use look::{descend, value_of};
use reach::{node_at, Reach};
use std::marker::PhantomData;

/// The refusals that a request can meet, with 01's numbers.
#[derive(Clone, Copy, Debug, PartialEq, Eq)]
pub enum Refused {
    NoPool = 2,
    Unfinished = 3,
    Damaged = 4,
    NoRoom = 5,
}

/// A pool in lent words, which reaches its words by `R`, flushes and fences by `W`, and makes 01's checks or not.
pub struct Direct<'a, R, W, const CHECKED: bool> {
    words: &'a mut [u64],
    wire: W,
    reach: PhantomData<R>,
}

impl<'a, R: Reach, W: Wire, const CHECKED: bool> Direct<'a, R, W, CHECKED> {
    pub fn new(words: &'a mut [u64], wire: W) -> Self {
        Direct {
            words,
            wire,
            reach: PhantomData,
        }
    }

    pub fn words(&self) -> &[u64] {
        self.words
    }

    /// The value under a key.
    #[inline(never)]
    pub fn fetch(&self, key: u64) -> Result<Option<u64>, Refused> {
        let way = descend::<R, CHECKED>(self.words, key)?;
        if !way.there {
            return Ok(None);
        }
        Ok(Some(value_of::<R>(R::node(self.words, way.leaf), way.entry())))
    }

    /// Puts a value under a key; whether the key is new.
    #[inline(never)]
    pub fn put(&mut self, key: u64, value: u64) -> Result<bool, Refused> {
        let way = descend::<R, CHECKED>(self.words, key)?;
        let at = node_at(way.leaf);
        let mut change = Change::<R, W>::new(self.words, &mut self.wire);
        if way.there {
            change.once(at + 3 + 2 * way.entry() as usize, value);
            return Ok(false);
        }
        if way.slot & 0xff == look::ENTRIES {
            return split::put(change, &way, key, value).map(|()| true);
        }
        let entry = change::spot(way.slot >> 8, way.slot & 0xff);
        change.entry(at, entry, key, value);
        change.once(at, change::with_name(way.slot, way.after, entry));
        Ok(true)
    }

    /// Takes a key out; whether it was there.
    #[inline(never)]
    pub fn delete(&mut self, key: u64) -> Result<bool, Refused> {
        let way = descend::<R, CHECKED>(self.words, key)?;
        if way.there {
            let mut change = Change::<R, W>::new(self.words, &mut self.wire);
            change.once(node_at(way.leaf), change::without_name(way.slot, way.after - 1));
        }
        Ok(way.there)
    }
}
