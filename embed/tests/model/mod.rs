//! A model of the pool and its desks, written from the requirements alone and as plainly as can be: what every call answers, the
//! events it plans, the marks, pool and desks it leaves, for every input. The tests hold the proved code against it.
//! A refusal is its number. Each test binary uses a part of the model only.
#![allow(dead_code)]

pub mod check;
pub mod descend;
pub mod desks;
pub mod events;
pub mod formed;
pub mod header;
pub mod loss;
pub mod node;
pub mod put;
pub mod recover;
pub mod split;

use events::Event;

/// What a fetch, put or delete answers when it is not refused.
#[derive(Clone, Copy, Debug, PartialEq, Eq)]
pub enum Outcome {
    New,
    Replaced,
    Removed,
    Absent,
    Found(u64),
}

/// A planning call's answer with the events that it plans, or the number of its refusal.
pub type Planned<T> = Result<(T, Vec<Event>), u64>;

/// Numbers of refusal.
pub mod refusal {
    pub const SHORT_LIST: u64 = 1;
    pub const NO_POOL: u64 = 2;
    pub const UNFINISHED: u64 = 3;
    pub const DAMAGED: u64 = 4;
    pub const NO_ROOM: u64 = 5;
    pub const BAD_LOG: u64 = 6;
    pub const BAD_CAPACITY: u64 = 7;
    pub const SHORT_SLICE: u64 = 8;
    pub const NO_DESK: u64 = 9;
    pub const FULL_DESK: u64 = 10;
    pub const SHORT_MARKS: u64 = 11;
    pub const NO_EVENT: u64 = 12;
}
