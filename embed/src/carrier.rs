//! Planning into a list and carrying the list out, for whoever holds the words.

use crate::medium::{carry_list, settle, Medium};
use crate::{calls, words_of, Answer, Checked, Error, Recovery, Refusal, LIST_WORDS};

/// Where the header has the capacity.
const CAPACITY_AT: usize = 4;

/// An event list and the medium that carries it out.
pub(crate) struct Carrier<M> {
    pub(crate) list: [u64; LIST_WORDS],
    pub(crate) medium: M,
}

impl<M: Medium> Carrier<M> {
    pub(crate) fn new(medium: M) -> Carrier<M> {
        Carrier {
            list: [0; LIST_WORDS],
            medium,
        }
    }

    pub(crate) fn format(&mut self, words: &mut [u64], capacity: u64) -> Result<(), Refusal> {
        let events = calls::format(words, &mut self.list, capacity)?;
        self.carry(words, events)
    }

    /// Makes the pool's words safe, then carries out its recovery.
    ///
    /// Memory found after a power cut is all safe, and 01 counts on it. Memory found after a process was killed need not be:
    /// the caches still hold what it stored and never flushed. Planned on as if it were safe, a later power cut could bring an
    /// old commit word back beside the pairs of a new log. So every line is flushed and fenced first, whatever came before.
    fn recover(&mut self, words: &mut [u64]) -> Result<Recovery, Refusal> {
        let recovery = calls::recover(words, &mut self.list)?;
        settle(&words[..words_of(words[CAPACITY_AT])], &mut self.medium);
        if let Recovery::Recovered { events, .. } = recovery {
            self.carry(words, events)?;
        }
        Ok(recovery)
    }

    /// Makes the pool's words safe, recovers, and checks the whole pool.
    pub(crate) fn open(&mut self, words: &mut [u64], marks: &mut [u8]) -> Result<Recovery, Error> {
        let recovery = self.recover(words)?;
        match calls::check(words, marks)? {
            Checked::Sound { .. } => Ok(recovery),
            Checked::Fault { node } => Err(Error::Fault { node }),
        }
    }

    #[inline]
    pub(crate) fn put(&mut self, words: &mut [u64], key: u64, value: u64) -> Result<Answer, Refusal> {
        let answer = calls::put(words, &mut self.list, key, value)?;
        self.carry(words, answer.events)?;
        Ok(answer)
    }

    #[inline]
    pub(crate) fn delete(&mut self, words: &mut [u64], key: u64) -> Result<Answer, Refusal> {
        let answer = calls::delete(words, &mut self.list, key)?;
        self.carry(words, answer.events)?;
        Ok(answer)
    }

    #[inline]
    pub(crate) fn carry(&mut self, words: &mut [u64], events: u64) -> Result<(), Refusal> {
        carry_list(words, &self.list, events, &mut self.medium)
    }
}
