//! What is asked of a pool, and what it answers.

use crate::Refusal;

/// What a member asks.
#[derive(Clone, Copy, Debug, PartialEq, Eq)]
pub enum Request {
    /// Put this value under this key.
    Put(u64, u64),
    /// Fetch the value under this key.
    Fetch(u64),
    /// Delete this key.
    Delete(u64),
}

/// What came of a fetch, a put or a delete that was not refused.
///
/// More will come with further requests, so a `match` outside this crate needs an arm for the rest.
#[derive(Clone, Copy, Debug, PartialEq, Eq)]
#[non_exhaustive]
pub enum Outcome {
    /// A put of a key that was absent.
    New,
    /// A put of a key that was present.
    Replaced,
    /// A delete of a key that was present.
    Removed,
    /// A fetch or a delete of a key that is absent.
    Absent,
    /// A fetch of a key that is present, with its value.
    Found(u64),
}

/// The answer to a put or a delete: what came of it, and the events planned for it.
#[derive(Clone, Copy, Debug, PartialEq, Eq)]
pub struct Answer {
    /// What came of it.
    pub outcome: Outcome,
    /// How many events the list now holds for it, from the list's start.
    pub events: u64,
}

/// The answer to a recovery.
#[derive(Clone, Copy, Debug, PartialEq, Eq)]
pub enum Recovery {
    /// No change was unfinished.
    Clean,
    /// A committed change is done again from the log.
    Recovered {
        /// The pairs of the log.
        pairs: u64,
        /// How many events the list now holds, from the list's start.
        events: u64,
    },
}

/// The answer to the whole-pool check.
#[derive(Clone, Copy, Debug, PartialEq, Eq)]
pub enum Checked {
    /// The pool is well formed.
    Sound {
        /// The nodes of the tree.
        nodes: u64,
        /// The records in its leaves.
        records: u64,
    },
    /// The pool is not well formed.
    Fault {
        /// The node at fault; 0 if the nodes differ from the header's count.
        node: u64,
    },
}

/// The answer to a turn.
#[derive(Clone, Copy, Debug, PartialEq, Eq)]
pub struct Turn {
    /// Whether a request was served, and what came of it.
    pub turned: Turned,
    /// The member served, 0 for none.
    pub member: u64,
    /// The events carried out, which the list now holds.
    pub events: u64,
    /// The last served, to be handed to the next turn.
    pub last: u64,
}

/// Whether a turn served a request.
#[derive(Clone, Copy, Debug, PartialEq, Eq)]
pub enum Turned {
    /// A request was served; the refusals 2 to 5 are answers to its member.
    Served(Result<Outcome, Refusal>),
    /// No desk was full.
    Idle,
}
