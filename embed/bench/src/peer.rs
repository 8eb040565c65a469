//! What is asked of every peer.

use crate::keys::{value_of, Asked, ROUND_BITS};

/// The operations of a round, in its order.
#[derive(Clone, Copy, Debug, PartialEq, Eq)]
pub enum Op {
    Hit,
    Miss,
    Replace,
    Delete,
    PutBack,
}

impl Op {
    pub const ALL: [Op; 5] = [Op::Hit, Op::Miss, Op::Replace, Op::Delete, Op::PutBack];

    pub fn name(self) -> &'static str {
        match self {
            Op::Hit => "fetch, hit",
            Op::Miss => "fetch, miss",
            Op::Replace => "put, replacing",
            Op::Delete => "delete",
            Op::PutBack => "put, no split",
        }
    }

    /// Its name in a row of all of them.
    pub fn short(self) -> &'static str {
        match self {
            Op::Hit => "hit",
            Op::Miss => "miss",
            Op::Replace => "replacing",
            Op::Delete => "delete",
            Op::PutBack => "put",
        }
    }

    pub fn writes(self) -> bool {
        !matches!(self, Op::Hit | Op::Miss)
    }

    /// The keys of this operation in a round.
    pub fn keys(self, asked: &Asked) -> &[u64] {
        match self {
            Op::Hit => &asked.hits,
            Op::Miss => &asked.misses,
            Op::Replace => &asked.replaced,
            Op::Delete => &asked.deleted,
            Op::PutBack => &asked.put_back,
        }
    }
}

/// What an absent key adds to a batch's sum.
const ABSENT: u64 = 1 << 40;

/// A map from words to words under measurement. It fails by panicking: a failed request is no measurement.
pub trait Peer {
    fn get(&mut self, key: u64) -> Option<u64>;
    fn put(&mut self, key: u64, value: u64);
    fn delete(&mut self, key: u64) -> bool;

    /// Stands before a batch of requests.
    fn begin(&mut self, _writes: bool) {}

    /// Stands after it.
    fn end(&mut self) {}

    /// Whether putting a present key replaces its value.
    fn replaces(&self) -> bool {
        true
    }

    /// One batch; the answer is a sum that is the same for every peer.
    fn batch(&mut self, op: Op, keys: &[u64], round: u64) -> u64 {
        self.begin(op.writes());
        let mut sum = 0u64;
        match op {
            Op::Hit | Op::Miss => keys
                .iter()
                .for_each(|&key| sum += self.get(key).map_or(ABSENT, |value| value >> ROUND_BITS)),
            Op::Delete => keys.iter().for_each(|&key| sum += u64::from(self.delete(key))),
            Op::Replace | Op::PutBack => keys.iter().for_each(|&key| self.put(key, value_of(key, round))),
        }
        self.end();
        sum
    }
}

/// A peer with its name.
pub struct Entrant {
    pub name: &'static str,
    pub peer: Box<dyn Peer>,
}
