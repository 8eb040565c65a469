//! Stores, flushes and fences straight into the pool, and the slot words of a change.

use super::reach::Reach;
use std::marker::PhantomData;

/// What flushes a line and fences.
pub trait Wire {
    /// Flushes the line that a word lies in.
    fn flush(&mut self, word: *const u64);
    fn fence(&mut self);
}

/// A change under way.
pub struct Change<'a, R, W> {
    words: &'a mut [u64],
    wire: &'a mut W,
    reach: PhantomData<R>,
}

impl<'a, R: Reach, W: Wire> Change<'a, R, W> {
    #[inline(always)]
    pub fn new(words: &'a mut [u64], wire: &'a mut W) -> Self {
        Change {
            words,
            wire,
            reach: PhantomData,
        }
    }

    #[inline(always)]
    pub fn words(&self) -> &[u64] {
        self.words
    }

    #[inline(always)]
    pub fn store(&mut self, at: usize, value: u64) {
        R::set(self.words, at, value);
    }

    #[inline(always)]
    pub fn flush(&mut self, at: usize) {
        self.wire.flush(self.words.as_ptr().wrapping_add(at));
    }

    #[inline(always)]
    pub fn fence(&mut self) {
        self.wire.fence();
    }

    /// One store, its line flushed, a fence.
    #[inline(always)]
    pub fn once(&mut self, at: usize, value: u64) {
        self.store(at, value);
        self.flush(at);
        self.fence();
    }

    /// Key and value into an entry of the node at `at`, their line flushed, a fence.
    #[inline(always)]
    pub fn entry(&mut self, at: usize, entry: u64, key: u64, value: u64) {
        let key_at = at + 2 + 2 * entry as usize;
        self.store(key_at, key);
        self.store(key_at + 1, value);
        self.flush(key_at);
        self.fence();
    }
}

#[inline(always)]
fn low_bytes(word: u64, count: u64) -> u64 {
    word & ((1 << (8 * count)) - 1)
}

/// A word of names with `entry` put in at the rank.
#[inline(always)]
pub fn insert(names: u64, rank: u64, entry: u64) -> u64 {
    let below = low_bytes(names, rank);
    ((names ^ below) << 8) | (entry << (8 * rank)) | below
}

/// The slot word of the first names of a word.
#[inline(always)]
pub fn slot_of(names: u64, count: u64) -> u64 {
    (low_bytes(names, count) << 8) | count
}

/// A slot word with an entry named at the rank.
#[inline(always)]
pub fn with_name(slot: u64, rank: u64, entry: u64) -> u64 {
    slot_of(insert(slot >> 8, rank, entry), (slot & 0xff) + 1)
}

/// A slot word without the name at the rank.
#[inline(always)]
pub fn without_name(slot: u64, rank: u64) -> u64 {
    let names = slot >> 8;
    let below = low_bytes(names, rank);
    let above = ((names >> (8 * rank)) >> 8) << (8 * rank);
    slot_of(above | below, (slot & 0xff) - 1)
}

/// The lowest entry that is not among the first names of a word.
#[inline(always)]
pub fn spot(names: u64, count: u64) -> u64 {
    let (mut rest, mut seen) = (names, 0u64);
    for _ in 0..count {
        seen |= 1 << (rest & 7);
        rest >>= 8;
    }
    u64::from((!seen).trailing_zeros())
}
