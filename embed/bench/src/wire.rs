//! How the direct peers flush and fence, and media for both sides that only count or do nothing.

use crate::direct::Wire;
use ombykape::medium::{Counting, FlushKind, Medium};
use std::arch::asm;

/// The processor's best flush instruction and its fence, `mfence` or `sfence`.
pub struct Hardware<const MFENCE: bool> {
    kind: FlushKind,
}

impl<const MFENCE: bool> Hardware<MFENCE> {
    pub fn new() -> Self {
        Hardware {
            kind: FlushKind::of_this_processor(),
        }
    }
}

impl<const MFENCE: bool> Wire for Hardware<MFENCE> {
    #[inline(always)]
    fn flush(&mut self, word: *const u64) {
        // SAFETY: the word is mapped, the instruction changes no value, and the kind is one that this processor has.
        unsafe {
            match self.kind {
                FlushKind::Clwb => asm!("clwb [{}]", in(reg) word, options(nostack, preserves_flags)),
                FlushKind::Clflushopt => asm!("clflushopt [{}]", in(reg) word, options(nostack, preserves_flags)),
                FlushKind::Clflush => asm!("clflush [{}]", in(reg) word, options(nostack, preserves_flags)),
            }
        }
    }

    #[inline(always)]
    fn fence(&mut self) {
        // SAFETY: a fence changes no value.
        unsafe {
            if MFENCE {
                asm!("mfence", options(nostack, preserves_flags));
            } else {
                asm!("sfence", options(nostack, preserves_flags));
            }
        }
    }
}

/// Plain stores, and nothing for a flush or a fence: for counting instructions where the flush instruction cannot run.
pub struct Plain;

impl Wire for Plain {
    #[inline(always)]
    fn flush(&mut self, _word: *const u64) {}

    #[inline(always)]
    fn fence(&mut self) {}
}

impl Medium for Plain {
    #[inline(always)]
    fn store(&mut self, words: &mut [u64], word: usize, value: u64) {
        words[word] = value;
    }

    #[inline(always)]
    fn flush(&mut self, _words: &[u64], _line: usize) {}

    #[inline(always)]
    fn fence(&mut self) {}
}

impl Wire for Counting {
    fn flush(&mut self, _word: *const u64) {
        self.flushes += 1;
    }

    fn fence(&mut self) {
        self.fences += 1;
    }
}
