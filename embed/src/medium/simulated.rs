//! The rule of loss: what memory may hold after a cut.

use super::{demand_line, Medium};
use crate::LINE_WORDS;
use std::collections::BTreeMap;

/// Plain stores to the live words, and beside them what each word may hold after a cut.
///
/// After a cut each word independently holds the value it had at the last flush of its line that a later fence followed (its
/// starting value if none), or any value stored to it after that flush. A word for which one value is left is safe.
#[derive(Clone, Debug)]
pub struct Simulated {
    /// Each word's value at the last flush of its line that a later fence followed.
    settled: Vec<u64>,
    /// The values stored to a word after that flush, in order.
    stored: BTreeMap<usize, Vec<u64>>,
    /// How many of those were stored before the last flush of the word's line, which no fence has followed yet.
    flushed: BTreeMap<usize, usize>,
}

impl Simulated {
    /// All words are safe, as memory is that was found after a cut.
    pub fn new(words: &[u64]) -> Simulated {
        Simulated {
            settled: words.to_vec(),
            stored: BTreeMap::new(),
            flushed: BTreeMap::new(),
        }
    }

    /// The different values that a word may hold after a cut, the settled one first, then by their first store.
    pub fn values(&self, word: usize) -> Vec<u64> {
        let mut values = vec![self.settled[word]];
        for &value in self.stored.get(&word).into_iter().flatten() {
            if !values.contains(&value) {
                values.push(value);
            }
        }
        values
    }

    /// The words that are not safe, rising, each with the values that it may hold.
    pub fn unsafe_words(&self) -> Vec<(usize, Vec<u64>)> {
        let words = self.stored.keys().map(|&word| (word, self.values(word)));
        words.filter(|(_, values)| values.len() > 1).collect()
    }

    /// Whether every word is safe.
    pub fn all_safe(&self) -> bool {
        self.unsafe_words().is_empty()
    }

    /// The memory found after a cut now. For each word that is not safe, rising, `choose` is handed its number and its values
    /// and picks one by its place; a place past the values is a panic.
    pub fn cut(&self, mut choose: impl FnMut(usize, &[u64]) -> usize) -> Vec<u64> {
        let mut found = self.settled.clone();
        for (word, values) in self.unsafe_words() {
            found[word] = values[choose(word, &values)];
        }
        found
    }
}

impl Medium for Simulated {
    fn store(&mut self, words: &mut [u64], word: usize, value: u64) {
        assert_eq!(
            words.len(),
            self.settled.len(),
            "other words than those that this medium was made for"
        );
        words[word] = value;
        self.stored.entry(word).or_default().push(value);
    }

    fn flush(&mut self, words: &[u64], line: usize) {
        demand_line(words, line);
        let first = line * LINE_WORDS;
        for (&word, values) in self.stored.range(first..first + LINE_WORDS) {
            self.flushed.insert(word, values.len());
        }
    }

    fn fence(&mut self) {
        for (word, before) in std::mem::take(&mut self.flushed) {
            let values = self.stored.get_mut(&word).expect("a flushed word was stored to");
            self.settled[word] = values[before - 1];
            values.drain(..before);
            if values.is_empty() {
                self.stored.remove(&word);
            }
        }
    }
}

#[cfg(test)]
mod tests {
    use super::Simulated;
    use crate::medium::Medium;

    /// Two lines, word k holding k.
    fn two_lines() -> (Vec<u64>, Simulated) {
        let words: Vec<u64> = (0..16).collect();
        let medium = Simulated::new(&words);
        (words, medium)
    }

    #[test]
    fn memory_found_is_all_safe() {
        let (words, medium) = two_lines();
        assert!(medium.all_safe());
        assert_eq!(medium.cut(|_, _| unreachable!()), words);
    }

    #[test]
    fn a_store_without_a_flush_may_be_lost_or_kept() {
        let (mut words, mut medium) = two_lines();
        medium.store(&mut words, 3, 30);
        medium.store(&mut words, 3, 31);
        medium.fence();
        assert_eq!(words[3], 31);
        assert_eq!(medium.unsafe_words(), [(3, vec![3, 30, 31])]);
        assert_eq!(medium.cut(|_, _| 0)[3], 3);
        assert_eq!(medium.cut(|_, _| 1)[3], 30);
        assert_eq!(medium.cut(|_, values| values.len() - 1)[3], 31);
    }

    #[test]
    fn a_flush_counts_once_a_fence_follows() {
        let (mut words, mut medium) = two_lines();
        medium.store(&mut words, 3, 30);
        medium.flush(&words, 0);
        assert_eq!(medium.values(3), [3, 30]);
        medium.store(&mut words, 3, 31);
        medium.fence();
        assert_eq!(medium.values(3), [30, 31]);
        medium.fence();
        assert_eq!(medium.values(3), [30, 31]);
        medium.flush(&words, 0);
        medium.fence();
        assert_eq!(medium.values(3), [31]);
        assert!(medium.all_safe());
    }

    #[test]
    fn the_last_flush_before_the_fence_counts() {
        let (mut words, mut medium) = two_lines();
        medium.store(&mut words, 0, 100);
        medium.flush(&words, 0);
        medium.store(&mut words, 0, 101);
        medium.flush(&words, 0);
        medium.store(&mut words, 0, 102);
        medium.fence();
        assert_eq!(medium.values(0), [101, 102]);
    }

    #[test]
    fn a_flush_reaches_its_own_line_only() {
        let (mut words, mut medium) = two_lines();
        medium.store(&mut words, 7, 70);
        medium.store(&mut words, 8, 80);
        medium.flush(&words, 0);
        medium.fence();
        assert_eq!(medium.unsafe_words(), [(8, vec![8, 80])]);
    }

    #[test]
    fn words_are_cut_independently() {
        let (mut words, mut medium) = two_lines();
        medium.store(&mut words, 1, 10);
        medium.store(&mut words, 9, 90);
        let found = medium.cut(|word, _| usize::from(word == 9));
        assert_eq!((found[1], found[9]), (1, 90));
    }

    #[test]
    fn a_store_of_the_same_value_leaves_a_word_safe() {
        let (mut words, mut medium) = two_lines();
        medium.store(&mut words, 5, 5);
        assert!(medium.all_safe());
        assert_eq!(medium.cut(|_, _| unreachable!()), words);
    }
}
