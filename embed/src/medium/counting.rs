//! A medium that counts.

use super::{demand_line, Medium};

/// Plain stores, with a count of what was carried out. Flushes and fences do nothing else.
#[derive(Clone, Copy, Debug, Default, PartialEq, Eq)]
pub struct Counting {
    /// The stores so far.
    pub stores: u64,
    /// The flushes so far.
    pub flushes: u64,
    /// The fences so far.
    pub fences: u64,
}

impl Medium for Counting {
    #[inline]
    fn store(&mut self, words: &mut [u64], word: usize, value: u64) {
        words[word] = value;
        self.stores += 1;
    }

    #[inline]
    fn flush(&mut self, words: &[u64], line: usize) {
        demand_line(words, line);
        self.flushes += 1;
    }

    #[inline]
    fn fence(&mut self) {
        self.fences += 1;
    }
}
