//! What carries out stores, flushes and fences.

mod counting;
#[allow(unsafe_code)]
mod real;
mod simulated;

pub use counting::Counting;
pub use real::{FlushKind, Real, RealMfence};
pub use simulated::Simulated;

use crate::{Refusal, LINE_WORDS};

/// Carries out single stores, flushes and fences on lent words.
pub trait Medium {
    /// Stores a value to a word, as one store of 8 bytes. Panics if there is no such word.
    fn store(&mut self, words: &mut [u64], word: usize, value: u64);

    /// Starts the way of a line's words to the module. A last line may be partial. Panics if its first word is outside.
    fn flush(&mut self, words: &[u64], line: usize);

    /// Has every line that was flushed before arrive before anything that is stored after.
    fn fence(&mut self);
}

impl<M: Medium + ?Sized> Medium for &mut M {
    #[inline]
    fn store(&mut self, words: &mut [u64], word: usize, value: u64) {
        (**self).store(words, word, value);
    }

    #[inline]
    fn flush(&mut self, words: &[u64], line: usize) {
        (**self).flush(words, line);
    }

    #[inline]
    fn fence(&mut self) {
        (**self).fence();
    }
}

const STORE: u64 = 1;
const FLUSH: u64 = 2;
const FENCE: u64 = 3;
const KIND_AT: u32 = 56;
const NUMBER_MASK: u64 = (1 << KIND_AT) - 1;
const EVENT_WORDS: usize = 2;

/// Carries out the first `events` events of the list, in order.
///
/// It stops with refusal 12 at the first event that cannot be carried out: one past the list's end, of a kind that is not 1 to
/// 3, or with its word or its line's first word outside `words`. Those before it have then been carried out.
#[inline]
pub fn carry_list(words: &mut [u64], list: &[u64], events: u64, medium: &mut impl Medium) -> Result<(), Refusal> {
    let (list, _) = list.as_chunks::<EVENT_WORDS>();
    let listed = events.min(list.len() as u64);
    for &[first, value] in &list[..listed as usize] {
        carry(words, first, value, medium)?;
    }
    if listed < events {
        return Err(Refusal::NoEvent);
    }
    Ok(())
}

/// Makes every word safe: flushes each line, then fences.
pub fn settle(words: &[u64], medium: &mut impl Medium) {
    for line in 0..lines_of(words) {
        medium.flush(words, line);
    }
    medium.fence();
}

/// Carries out one event.
#[inline(always)]
fn carry(words: &mut [u64], first: u64, value: u64, medium: &mut impl Medium) -> Result<(), Refusal> {
    let number = (first & NUMBER_MASK) as usize;
    match first >> KIND_AT {
        STORE if number < words.len() => medium.store(words, number, value),
        FLUSH if number < lines_of(words) => medium.flush(words, number),
        FENCE => medium.fence(),
        _ => return Err(Refusal::NoEvent),
    }
    Ok(())
}

/// The lines whose first word lies in the slice.
#[inline(always)]
fn lines_of(words: &[u64]) -> usize {
    words.len().div_ceil(LINE_WORDS)
}

/// Panics unless the line's first word lies in the slice.
#[inline(always)]
fn demand_line(words: &[u64], line: usize) {
    assert!(line < lines_of(words), "line {line} lies outside the words");
}
