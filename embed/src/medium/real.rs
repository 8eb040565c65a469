//! The real medium: stores of 8 bytes, the processor's flush instructions and its fence.

use super::{demand_line, Medium};
use crate::LINE_WORDS;
use std::arch::asm;
use std::arch::x86_64::{__cpuid, __cpuid_count};
use std::ptr;
use std::sync::atomic::{AtomicU8, Ordering};

/// The bytes of a cache line. Each flush instruction writes back the whole cache line that holds its address.
const CACHE_LINE: usize = 64;

/// The instruction that flushes a cache line.
#[derive(Clone, Copy, Debug, PartialEq, Eq)]
pub enum FlushKind {
    /// `clwb`: writes the cache line back and may keep it in the cache.
    Clwb = 1,
    /// `clflushopt`: writes it back and drops it.
    Clflushopt,
    /// `clflush`: the same, in order with other flushes, and so slower.
    Clflush,
}

/// The kind chosen for this processor; 0 until the first flush asks.
static CHOSEN: AtomicU8 = AtomicU8::new(0);

impl FlushKind {
    /// The best of what a processor has, by EBX of its cpuid leaf 7 and EDX of its leaf 1.
    pub const fn of_cpuid(leaf_7_ebx: u32, leaf_1_edx: u32) -> Option<FlushKind> {
        if leaf_7_ebx & (1 << 24) != 0 {
            Some(FlushKind::Clwb)
        } else if leaf_7_ebx & (1 << 23) != 0 {
            Some(FlushKind::Clflushopt)
        } else if leaf_1_edx & (1 << 19) != 0 {
            Some(FlushKind::Clflush)
        } else {
            None
        }
    }

    /// What this processor has; it is asked once. Panics if it has none of the three.
    #[inline]
    pub fn of_this_processor() -> FlushKind {
        const CLWB: u8 = FlushKind::Clwb as u8;
        const CLFLUSHOPT: u8 = FlushKind::Clflushopt as u8;
        const CLFLUSH: u8 = FlushKind::Clflush as u8;
        match CHOSEN.load(Ordering::Relaxed) {
            CLWB => FlushKind::Clwb,
            CLFLUSHOPT => FlushKind::Clflushopt,
            CLFLUSH => FlushKind::Clflush,
            _ => FlushKind::ask(),
        }
    }

    #[cold]
    fn ask() -> FlushKind {
        let leaf_7_ebx = if __cpuid(0).eax >= 7 { __cpuid_count(7, 0).ebx } else { 0 };
        let kind = FlushKind::of_cpuid(leaf_7_ebx, __cpuid(1).edx).expect("the processor has no instruction that flushes a line");
        CHOSEN.store(kind as u8, Ordering::Relaxed);
        kind
    }
}

/// Real memory: stores of 8 bytes, `clwb`, `clflushopt` or `clflush` by what the processor has, and `sfence`.
///
/// Each store is one volatile store, so the compiler neither drops, splits nor moves it past a flush or a fence. If the words
/// do not start at a cache line, a line of 8 words lies in two of them, and a flush flushes both.
#[derive(Clone, Copy, Debug, Default)]
pub struct Real;

/// As [`Real`], with `mfence` in the place of `sfence`: it also waits for loads, which a pool does not need.
#[derive(Clone, Copy, Debug, Default)]
pub struct RealMfence;

impl Medium for Real {
    #[inline]
    fn store(&mut self, words: &mut [u64], word: usize, value: u64) {
        store(&mut words[word], value);
    }

    #[inline]
    fn flush(&mut self, words: &[u64], line: usize) {
        flush(words, line);
    }

    #[inline]
    fn fence(&mut self) {
        // SAFETY: the instruction orders stores and flushes and changes nothing else. Memory is not declared untouched, so the
        // compiler keeps stores on their side of it.
        unsafe { asm!("sfence", options(nostack, preserves_flags)) };
    }
}

impl Medium for RealMfence {
    #[inline]
    fn store(&mut self, words: &mut [u64], word: usize, value: u64) {
        store(&mut words[word], value);
    }

    #[inline]
    fn flush(&mut self, words: &[u64], line: usize) {
        flush(words, line);
    }

    #[inline]
    fn fence(&mut self) {
        // SAFETY: as for `sfence`.
        unsafe { asm!("mfence", options(nostack, preserves_flags)) };
    }
}

#[inline]
fn store(word: &mut u64, value: u64) {
    // SAFETY: the pointer is an exclusive borrow's.
    unsafe { ptr::write_volatile(word, value) };
}

/// Flushes every cache line that holds a word of the line.
#[inline]
fn flush(words: &[u64], line: usize) {
    let (first, other) = to_flush(words, line);
    flush_cache_line(first);
    if let Some(other) = other {
        flush_cache_line(other);
    }
}

/// A word in each cache line that holds words of the line: in one, or in two where the words do not start at a cache line.
#[inline]
fn to_flush(words: &[u64], line: usize) -> (&u64, Option<&u64>) {
    demand_line(words, line);
    let from = &words[line * LINE_WORDS..];
    let (first, last) = (&from[0], &from[from.len().min(LINE_WORDS) - 1]);
    (first, (cache_line_of(first) != cache_line_of(last)).then_some(last))
}

#[inline]
fn cache_line_of(word: &u64) -> usize {
    ptr::from_ref(word).addr() / CACHE_LINE
}

#[inline]
fn flush_cache_line(word: &u64) {
    let word = ptr::from_ref(word);
    // SAFETY: the address is a live borrow's, so it is mapped. Each of the three writes the cache line back and changes no
    // value, and the one taken is one that this processor has. Memory is not declared untouched, so the compiler keeps stores
    // on their side of it.
    unsafe {
        match FlushKind::of_this_processor() {
            FlushKind::Clwb => asm!("clwb [{}]", in(reg) word, options(nostack, preserves_flags)),
            FlushKind::Clflushopt => asm!("clflushopt [{}]", in(reg) word, options(nostack, preserves_flags)),
            FlushKind::Clflush => asm!("clflush [{}]", in(reg) word, options(nostack, preserves_flags)),
        }
    }
}

#[cfg(test)]
mod tests {
    use super::{cache_line_of, to_flush, FlushKind, Real, RealMfence};
    use crate::medium::Medium;
    use crate::LINE_WORDS;

    /// Words that start at a cache line.
    #[repr(align(64))]
    struct Aligned([u64; 40]);

    /// The cache lines that a flush reaches, as numbers from the one that `base` starts at.
    fn reached(base: &Aligned, words: &[u64], line: usize) -> Vec<usize> {
        let (first, other) = to_flush(words, line);
        let words = [Some(first), other].into_iter().flatten();
        words.map(|word| cache_line_of(word) - cache_line_of(&base.0[0])).collect()
    }

    #[test]
    fn the_best_flush_is_chosen() {
        assert_eq!(FlushKind::of_cpuid(1 << 24 | 1 << 23, 1 << 19), Some(FlushKind::Clwb));
        assert_eq!(FlushKind::of_cpuid(1 << 23, 1 << 19), Some(FlushKind::Clflushopt));
        assert_eq!(FlushKind::of_cpuid(!(1 << 24 | 1 << 23), 1 << 19), Some(FlushKind::Clflush));
        assert_eq!(FlushKind::of_cpuid(0, !(1 << 19)), None);
    }

    #[test]
    fn this_processor_is_asked_once() {
        assert_eq!(FlushKind::of_this_processor(), FlushKind::of_this_processor());
    }

    #[test]
    fn an_aligned_line_is_one_cache_line() {
        let base = Aligned([0; 40]);
        for line in 0..5 {
            assert_eq!(reached(&base, &base.0, line), [line]);
        }
    }

    #[test]
    fn an_unaligned_line_is_flushed_in_two() {
        let base = Aligned([0; 40]);
        for skipped in 1..LINE_WORDS {
            let words = &base.0[skipped..];
            for line in 0..4 {
                assert_eq!(reached(&base, words, line), [line, line + 1], "{skipped} skipped");
            }
        }
    }

    #[test]
    fn a_partial_last_line_is_flushed_as_far_as_it_goes() {
        let base = Aligned([0; 40]);
        assert_eq!(reached(&base, &base.0[..17], 2), [2]);
        assert_eq!(reached(&base, &base.0[3..24], 2), [2]);
        assert_eq!(reached(&base, &base.0[3..25], 2), [2, 3]);
    }

    #[test]
    fn both_real_media_store_and_flush_any_line() {
        let mut aligned = Aligned([0; 40]);
        let words = &mut aligned.0[3..];
        for word in 0..words.len() {
            Real.store(words, word, word as u64);
            Real.flush(words, word / LINE_WORDS);
            Real.fence();
            RealMfence.store(words, word, 2 * word as u64);
            RealMfence.flush(words, word / LINE_WORDS);
            RealMfence.fence();
        }
        assert!(words.iter().enumerate().all(|(word, &value)| value == 2 * word as u64));
    }

    #[test]
    #[should_panic(expected = "lies outside the words")]
    fn a_line_outside_is_a_panic() {
        Real.flush(&[0; 16], 1 << 61);
    }
}
