//! Ombykape for Rust: a map from 64-bit keys to 64-bit values in persistent memory, planned by proved code.
//!
//! The code that reads a pool and plans its changes is proved in Rattle and linked as an archive. This crate lends it memory
//! and carries the planned events out: stores, flushes and fences, in order. [`calls`] has the proved calls on plain slices,
//! [`medium`] what carries events out, [`Pool`] a pool in lent words, [`PoolFile`] one in a mapped file, and [`Desks`] the
//! desks of several members over either. This crate itself is not proved: it is written to be read, and tested.
//!
//! ```
//! use ombykape::{medium::Real, words_of, Outcome, Pool};
//!
//! let mut words = vec![0; words_of(100)];
//! let mut pool = Pool::format(&mut words, Real, 100)?;
//! assert_eq!(pool.put(7, 70)?.outcome, Outcome::New);
//! assert_eq!(pool.get(7)?, Some(70));
//! # Ok::<(), ombykape::Refusal>(())
//! ```
#![deny(unsafe_op_in_unsafe_fn, clippy::undocumented_unsafe_blocks)]
#![deny(unsafe_code)]
#![deny(missing_docs)]

#[cfg(not(all(target_arch = "x86_64", target_os = "linux")))]
compile_error!("the archive of proved code and the flush instructions are for x86-64 Linux");

mod answer;
#[allow(unsafe_code)]
pub mod calls;
mod carrier;
mod desk;
mod desks;
mod error;
#[allow(unsafe_code)]
mod ffi;
mod file;
#[allow(unsafe_code)]
mod map;
pub mod medium;
mod pool;
mod refusal;

pub use answer::{Answer, Checked, Outcome, Recovery, Request, Turn, Turned};
pub use desk::Desk;
pub use desks::Desks;
pub use error::Error;
pub use file::PoolFile;
pub use map::Reach;
pub use pool::Pool;
pub use refusal::Refusal;

/// The words of a line.
pub const LINE_WORDS: usize = 8;

/// The words of an event list that every planning call takes.
pub const LIST_WORDS: usize = 372;

/// The nodes of a pool, at most.
pub const CAPACITY_MOST: u64 = 40_000;

/// The members of a list of desks, at most.
pub const MEMBERS_MOST: usize = 16;

const NODES_OFFSET: u64 = 72;
const NODE_WORDS: u64 = 16;

/// The words that a pool of this capacity takes: 72 and 16 for each node.
///
/// A capacity far past [`CAPACITY_MOST`], for which the sum does not fit, gives the largest number.
pub const fn words_of(capacity: u64) -> usize {
    NODE_WORDS.saturating_mul(capacity).saturating_add(NODES_OFFSET) as usize
}
