//! A pool in lent words.

use crate::carrier::Carrier;
use crate::medium::Medium;
use crate::{calls, Answer, Checked, Error, Outcome, Recovery, Refusal};

/// A pool in lent words, with the event list for its changes and the medium that carries them out.
///
/// The words may be more than the pool needs; the rest is never touched. For a pool in persistent memory let the words start
/// at a cache line, so that a line of the pool is one cache line; [`crate::medium::Real`] flushes both where it is not.
pub struct Pool<'a, M: Medium> {
    pub(crate) words: &'a mut [u64],
    pub(crate) carrier: Carrier<M>,
    recovery: Recovery,
}

impl<'a, M: Medium> Pool<'a, M> {
    /// Makes an empty pool of `capacity` nodes, whatever the words hold: it needs `words_of(capacity)` of them.
    pub fn format(words: &'a mut [u64], medium: M, capacity: u64) -> Result<Pool<'a, M>, Refusal> {
        let mut pool = Pool::over(words, medium);
        pool.carrier.format(pool.words, capacity)?;
        Ok(pool)
    }

    /// Opens the pool that the words hold: flushes its every line and fences, so that what was found is safe also if no power
    /// cut but a killed process left it; finishes a committed change that was left; then checks the whole pool.
    ///
    /// `marks` needs a byte for each node of the pool's capacity, and is written.
    pub fn open(words: &'a mut [u64], marks: &mut [u8], medium: M) -> Result<Pool<'a, M>, Error> {
        let mut pool = Pool::over(words, medium);
        pool.recovery = pool.carrier.open(pool.words, marks)?;
        Ok(pool)
    }

    /// Words that are known to hold a well-formed pool, or are about to be formatted.
    pub(crate) fn over(words: &'a mut [u64], medium: M) -> Pool<'a, M> {
        Pool {
            words,
            carrier: Carrier::new(medium),
            recovery: Recovery::Clean,
        }
    }

    /// The value under a key.
    #[inline]
    pub fn get(&self, key: u64) -> Result<Option<u64>, Refusal> {
        calls::fetch(self.words, key).map(value_found)
    }

    /// Puts a value under a key, and answers once every event of it has been carried out.
    #[inline]
    pub fn put(&mut self, key: u64, value: u64) -> Result<Answer, Refusal> {
        self.carrier.put(self.words, key, value)
    }

    /// Deletes a key, and answers once every event of it has been carried out.
    #[inline]
    pub fn delete(&mut self, key: u64) -> Result<Answer, Refusal> {
        self.carrier.delete(self.words, key)
    }

    /// Checks the whole pool; `marks` as in [`Pool::open`].
    pub fn check(&self, marks: &mut [u8]) -> Result<Checked, Refusal> {
        calls::check(self.words, marks)
    }

    /// What opening the pool found unfinished.
    pub fn recovery(&self) -> Recovery {
        self.recovery
    }

    /// The words that were lent.
    pub fn words(&self) -> &[u64] {
        self.words
    }

    /// The event list, which holds the events of the last change from its start.
    pub fn list(&self) -> &[u64] {
        &self.carrier.list
    }

    /// The medium.
    pub fn medium(&self) -> &M {
        &self.carrier.medium
    }

    /// Gives the medium back, and ends the loan of the words.
    pub fn into_medium(self) -> M {
        self.carrier.medium
    }
}

/// The value of a fetch that was not refused.
#[inline]
pub(crate) fn value_found(outcome: Outcome) -> Option<u64> {
    match outcome {
        Outcome::Found(value) => Some(value),
        _ => None,
    }
}

#[cfg(test)]
mod tests {
    use super::Pool;
    use crate::medium::{carry_list, Simulated};
    use crate::{calls, words_of, Recovery, LIST_WORDS};

    const CAPACITY: u64 = 5;

    /// A pool whose one leaf is full, with the events of a put that splits it.
    fn before_a_split() -> (Vec<u64>, Vec<u64>, u64) {
        let mut words = vec![0; words_of(CAPACITY)];
        let medium = Simulated::new(&words);
        let mut pool = Pool::format(&mut words, medium, CAPACITY).unwrap();
        for key in 1..=7 {
            pool.put(10 * key, key).unwrap();
        }
        let mut list = vec![0; LIST_WORDS];
        let events = calls::put(&words, &mut list, 80, 8).unwrap().events;
        (words, list, events)
    }

    #[test]
    fn opening_makes_the_words_safe_that_a_killed_process_left() {
        let (words, list, events) = before_a_split();
        for carried in 0..=events {
            let (mut words, mut medium) = (words.clone(), Simulated::new(&words));
            carry_list(&mut words, &list, carried, &mut medium).unwrap();
            let mut marks = [0; CAPACITY as usize];
            let pool = Pool::open(&mut words, &mut marks, &mut medium).unwrap();
            assert!([None, Some(8)].contains(&pool.get(80).unwrap()));
            assert!(medium.all_safe(), "{carried} events carried out");
            assert_eq!(medium.cut(|_, _| unreachable!()), words);
        }
    }

    #[test]
    fn opening_finishes_a_committed_change() {
        let (mut words, list, events) = before_a_split();
        let mut medium = Simulated::new(&words);
        carry_list(&mut words, &list, events - 4, &mut medium).unwrap();
        let pool = Pool::open(&mut words, &mut [0; CAPACITY as usize], medium).unwrap();
        assert_eq!(pool.recovery(), Recovery::Recovered { pairs: 5, events: 14 });
        assert_eq!(pool.get(80), Ok(Some(8)));
    }
}
