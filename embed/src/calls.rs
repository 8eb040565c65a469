//! The proved calls on plain slices, one to one.
//!
//! Each takes slices of any length and content. `put`, `delete`, `format` and `recover` plan: they write events into the list
//! and change no word of the pool; the caller then carries the events out, in order ([`crate::medium::carry_list`]). `turn`
//! carries its events out itself, by plain stores, and leaves them in the list.
//!
//! The archive asks of its caller what Rust's own references already say: every pointer is aligned and has so many elements
//! that may be read (and written, behind a `*mut`), no slice that is written overlaps another one, and nothing else writes to
//! what is lent before the call returns. It keeps no pointer, and an empty slice may have a dangling one. Each `SAFETY`
//! comment below names the borrows that give this.

use crate::ffi::{self, kind, Reply, TurnReply, Verdict};
use crate::{Answer, Checked, Desk, Outcome, Recovery, Refusal, Request, Turn, Turned};

/// Plans the making of an empty pool of `capacity` nodes, and answers the number of events.
#[inline]
pub fn format(pool: &[u64], list: &mut [u64], capacity: u64) -> Result<u64, Refusal> {
    // SAFETY: `pool` is a shared borrow and `list` an exclusive one, both live for the call, so they cannot overlap.
    let reply = unsafe { ffi::ombykape_format(pool.as_ptr(), pool.len(), list.as_mut_ptr(), list.len(), capacity) };
    match reply.kind {
        kind::FORMATTED => Ok(reply.events),
        _ => Err(refused("format", reply.kind, reply.value)),
    }
}

/// Plans the finishing of a change that a cut left committed.
#[inline]
pub fn recover(pool: &[u64], list: &mut [u64]) -> Result<Recovery, Refusal> {
    // SAFETY: `pool` is a shared borrow and `list` an exclusive one, both live for the call, so they cannot overlap.
    let reply = unsafe { ffi::ombykape_recover(pool.as_ptr(), pool.len(), list.as_mut_ptr(), list.len()) };
    match reply.kind {
        kind::CLEAN => Ok(Recovery::Clean),
        kind::RECOVERED => Ok(Recovery::Recovered {
            pairs: reply.value,
            events: reply.events,
        }),
        _ => Err(refused("recover", reply.kind, reply.value)),
    }
}

/// Answers [`Outcome::Found`] or [`Outcome::Absent`].
#[inline]
pub fn fetch(pool: &[u64], key: u64) -> Result<Outcome, Refusal> {
    // SAFETY: `pool` is a shared borrow, live for the call, which only reads it.
    let reply = unsafe { ffi::ombykape_fetch(pool.as_ptr(), pool.len(), key) };
    outcome("fetch", reply.kind, reply.value)
}

/// Plans a put, and answers [`Outcome::New`] or [`Outcome::Replaced`].
#[inline]
pub fn put(pool: &[u64], list: &mut [u64], key: u64, value: u64) -> Result<Answer, Refusal> {
    // SAFETY: `pool` is a shared borrow and `list` an exclusive one, both live for the call, so they cannot overlap.
    let reply = unsafe { ffi::ombykape_put(pool.as_ptr(), pool.len(), list.as_mut_ptr(), list.len(), key, value) };
    planned("put", reply)
}

/// Plans a delete, and answers [`Outcome::Removed`] or [`Outcome::Absent`].
#[inline]
pub fn delete(pool: &[u64], list: &mut [u64], key: u64) -> Result<Answer, Refusal> {
    // SAFETY: `pool` is a shared borrow and `list` an exclusive one, both live for the call, so they cannot overlap.
    let reply = unsafe { ffi::ombykape_delete(pool.as_ptr(), pool.len(), list.as_mut_ptr(), list.len(), key) };
    planned("delete", reply)
}

/// Checks the whole pool; `marks` has a byte for each node of the capacity, and is written.
#[inline]
pub fn check(pool: &[u64], marks: &mut [u8]) -> Result<Checked, Refusal> {
    // SAFETY: `pool` is a shared borrow and `marks` an exclusive one, both live for the call, so they cannot overlap.
    let verdict = unsafe { ffi::ombykape_check(pool.as_ptr(), pool.len(), marks.as_mut_ptr(), marks.len()) };
    checked(verdict)
}

/// Carries out event `n` of the list, from 1, by a plain store; a flush or a fence changes nothing.
#[inline]
pub fn carry_out(pool: &mut [u64], list: &[u64], n: u64) -> Result<(), Refusal> {
    // SAFETY: `pool` is an exclusive borrow and `list` a shared one, both live for the call, so they cannot overlap.
    let reply = unsafe { ffi::ombykape_carry_out(pool.as_mut_ptr(), pool.len(), list.as_ptr(), list.len(), n) };
    match reply.kind {
        kind::DONE => Ok(()),
        _ => Err(refused("carry_out", reply.kind, reply.value)),
    }
}

/// Carries out the first `events` events of the list by plain stores; one that cannot be carried out is passed over.
///
/// It looks at each number up to `events`, also past the list's end: the time grows with `events`.
#[inline]
pub fn carry_all(pool: &mut [u64], list: &[u64], events: u64) {
    // SAFETY: `pool` is an exclusive borrow and `list` a shared one, both live for the call, so they cannot overlap.
    unsafe { ffi::ombykape_carry_all(pool.as_mut_ptr(), pool.len(), list.as_ptr(), list.len(), events) }
}

/// Lays a request on the member's desk, if that is empty. Members are numbered from 1.
#[inline]
pub fn submit(desks: &mut [Desk], member: u64, request: Request) -> Result<(), Refusal> {
    let (at, count) = (desks.as_mut_ptr(), desks.len());
    // SAFETY: `at` and `count` are those of `desks`, an exclusive borrow that is live for the call; a `Desk` is a `DeskRecord`.
    let reply = unsafe {
        match request {
            Request::Put(key, value) => ffi::ombykape_submit_put(at, count, member, key, value),
            Request::Fetch(key) => ffi::ombykape_submit_fetch(at, count, member, key),
            Request::Delete(key) => ffi::ombykape_submit_delete(at, count, member, key),
        }
    };
    match reply.kind {
        kind::ACCEPTED => Ok(()),
        _ => Err(refused("submit", reply.kind, reply.value)),
    }
}

/// Serves the first full desk after `last`, going round, and carries its events out by plain stores.
#[inline]
pub fn turn(pool: &mut [u64], list: &mut [u64], desks: &mut [Desk], last: u64) -> Result<Turn, Refusal> {
    // SAFETY: the three are exclusive borrows, live for the call, so no two overlap; a `Desk` is a `DeskRecord`.
    let reply = unsafe {
        ffi::ombykape_turn(
            pool.as_mut_ptr(),
            pool.len(),
            list.as_mut_ptr(),
            list.len(),
            desks.as_mut_ptr(),
            desks.len(),
            last,
        )
    };
    turned(reply)
}

fn turned(reply: TurnReply) -> Result<Turn, Refusal> {
    let turned = match (reply.kind, reply.member) {
        (kind::IDLE, _) => Turned::Idle,
        (kind::REFUSED, 0) => return Err(refused("turn", reply.kind, reply.value)),
        _ => Turned::Served(outcome("turn", reply.kind, reply.value)),
    };
    Ok(Turn {
        turned,
        member: reply.member,
        events: reply.events,
        last: reply.last,
    })
}

#[inline]
fn planned(call: &str, reply: Reply) -> Result<Answer, Refusal> {
    let outcome = outcome(call, reply.kind, reply.value)?;
    Ok(Answer {
        outcome,
        events: reply.events,
    })
}

fn checked(verdict: Verdict) -> Result<Checked, Refusal> {
    match verdict.kind {
        kind::SOUND => Ok(Checked::Sound {
            nodes: verdict.number,
            records: verdict.records,
        }),
        kind::FAULT => Ok(Checked::Fault { node: verdict.number }),
        _ => Err(refused("check", verdict.kind, verdict.number)),
    }
}

#[inline]
fn outcome(call: &str, kind: u64, value: u64) -> Result<Outcome, Refusal> {
    match kind {
        kind::NEW => Ok(Outcome::New),
        kind::REPLACED => Ok(Outcome::Replaced),
        kind::REMOVED => Ok(Outcome::Removed),
        kind::ABSENT => Ok(Outcome::Absent),
        kind::FOUND => Ok(Outcome::Found(value)),
        _ => Err(refused(call, kind, value)),
    }
}

/// The refusal of this number. Any other kind or number is ruled out by the contract of the call, so it means another archive.
#[cold]
fn refused(call: &str, kind: u64, number: u64) -> Refusal {
    match (kind, Refusal::of_number(number)) {
        (kind::REFUSED, Some(refusal)) => refusal,
        _ => panic!("{call} answered kind {kind} with {number}, which its contract rules out: the archive is not this crate's"),
    }
}
