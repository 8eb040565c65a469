//! The boundary as the archive has it: its structs, its kinds and its calls.

use crate::Desk;

/// The answer of every call but the check and the turn.
#[derive(Clone, Copy)]
#[repr(C)]
pub struct Reply {
    pub kind: u64,
    pub events: u64,
    /// The value found, the pairs replayed, or the number of the refusal.
    pub value: u64,
}

/// The answer of the check.
#[derive(Clone, Copy)]
#[repr(C)]
pub struct Verdict {
    pub kind: u64,
    /// The nodes, the node at fault, or the number of the refusal.
    pub number: u64,
    pub records: u64,
}

/// The answer of a turn.
#[derive(Clone, Copy)]
#[repr(C)]
pub struct TurnReply {
    pub kind: u64,
    pub member: u64,
    pub events: u64,
    pub last: u64,
    /// The value found, or the number of the refusal.
    pub value: u64,
}

/// The kinds of an answer.
pub mod kind {
    pub const REFUSED: u64 = 0;
    pub const NEW: u64 = 1;
    pub const REPLACED: u64 = 2;
    pub const REMOVED: u64 = 3;
    pub const ABSENT: u64 = 4;
    pub const FOUND: u64 = 5;
    pub const FORMATTED: u64 = 6;
    pub const CLEAN: u64 = 7;
    pub const RECOVERED: u64 = 8;
    pub const SOUND: u64 = 9;
    pub const FAULT: u64 = 10;
    pub const DONE: u64 = 11;
    pub const ACCEPTED: u64 = 12;
    pub const IDLE: u64 = 13;
}

/// The kinds of a desk.
pub mod desk_kind {
    pub const EMPTY: u64 = 0;
    pub const PUT: u64 = 1;
    pub const FETCH: u64 = 2;
    pub const DELETE: u64 = 3;
}

extern "C" {
    pub fn ombykape_format(pool: *const u64, pool_len: usize, list: *mut u64, list_len: usize, capacity: u64) -> Reply;
    pub fn ombykape_recover(pool: *const u64, pool_len: usize, list: *mut u64, list_len: usize) -> Reply;
    pub fn ombykape_fetch(pool: *const u64, pool_len: usize, key: u64) -> Reply;
    pub fn ombykape_put(pool: *const u64, pool_len: usize, list: *mut u64, list_len: usize, key: u64, value: u64) -> Reply;
    pub fn ombykape_delete(pool: *const u64, pool_len: usize, list: *mut u64, list_len: usize, key: u64) -> Reply;
    pub fn ombykape_check(pool: *const u64, pool_len: usize, marks: *mut u8, marks_len: usize) -> Verdict;
    pub fn ombykape_carry_out(pool: *mut u64, pool_len: usize, list: *const u64, list_len: usize, n: u64) -> Reply;
    pub fn ombykape_carry_all(pool: *mut u64, pool_len: usize, list: *const u64, list_len: usize, events: u64);
    pub fn ombykape_submit_put(desks: *mut Desk, desks_len: usize, member: u64, key: u64, value: u64) -> Reply;
    pub fn ombykape_submit_fetch(desks: *mut Desk, desks_len: usize, member: u64, key: u64) -> Reply;
    pub fn ombykape_submit_delete(desks: *mut Desk, desks_len: usize, member: u64, key: u64) -> Reply;
    pub fn ombykape_turn(
        pool: *mut u64,
        pool_len: usize,
        list: *mut u64,
        list_len: usize,
        desks: *mut Desk,
        desks_len: usize,
        last: u64,
    ) -> TurnReply;
}
