//! Words that start at a cache line.

use std::slice;

#[derive(Clone, Copy)]
#[repr(C, align(64))]
struct Line([u64; ombykape::LINE_WORDS]);

/// Owned words for a pool.
pub struct Memory {
    lines: Vec<Line>,
}

impl Memory {
    pub fn new(words: usize) -> Memory {
        Memory {
            lines: vec![Line([0; ombykape::LINE_WORDS]); words.div_ceil(ombykape::LINE_WORDS)],
        }
    }

    /// The words, lent for as long as the process runs: a pool borrows them, and a race ends with the process.
    pub fn lend(self) -> &'static mut [u64] {
        let lines = self.lines.leak();
        // SAFETY: a `Line` is its eight words with nothing between, and the borrow is exclusive.
        unsafe { slice::from_raw_parts_mut(lines.as_mut_ptr().cast(), lines.len() * ombykape::LINE_WORDS) }
    }
}
