//! Submit and turn.

use super::descend::fetch;
use super::events::{admit_list, carry, Event, LIST_WORDS};
use super::put::{delete, put};
use super::refusal::{FULL_DESK, NO_DESK};
use super::{Outcome, Planned};

/// The most desks.
pub const DESKS_MOST: usize = 16;

#[derive(Clone, Copy, Debug, PartialEq, Eq)]
pub enum Request {
    Put(u64, u64),
    Fetch(u64),
    Delete(u64),
}

/// A desk: empty, or holding one request.
pub type Desk = Option<Request>;

/// What a turn answers: the served member's answer (none when idle), the events, and the new last served.
#[derive(Clone, Debug, PartialEq, Eq)]
pub struct Turn {
    pub served: Option<Result<Outcome, u64>>,
    pub member: u64,
    pub events: Vec<Event>,
    pub last: u64,
}

fn admit_desks(desks: &[Desk]) -> Result<(), u64> {
    if desks.is_empty() || desks.len() > DESKS_MOST {
        return Err(NO_DESK);
    }
    Ok(())
}

pub fn submit(desks: &mut [Desk], member: u64, request: Request) -> Result<(), u64> {
    admit_desks(desks)?;
    if member < 1 || member > desks.len() as u64 {
        return Err(NO_DESK);
    }
    let desk = &mut desks[member as usize - 1];
    if desk.is_some() {
        return Err(FULL_DESK);
    }
    *desk = Some(request);
    Ok(())
}

pub fn turn(pool: &mut [u64], list_len: usize, desks: &mut [Desk], last: u64) -> Result<Turn, u64> {
    admit_desks(desks)?;
    if last > desks.len() as u64 {
        return Err(NO_DESK);
    }
    admit_list(list_len)?;
    let Some(member) = next_full(desks, last) else {
        return Ok(Turn {
            served: None,
            member: 0,
            events: Vec::new(),
            last,
        });
    };
    let request = desks[member as usize - 1].take().expect("a full desk");
    let (answer, events) = match serve(pool, request) {
        Ok((outcome, events)) => (Ok(outcome), events),
        Err(number) => (Err(number), Vec::new()),
    };
    carry(pool, &events);
    Ok(Turn {
        served: Some(answer),
        member,
        events,
        last: member,
    })
}

/// The first full desk after the one last served, going round.
fn next_full(desks: &[Desk], last: u64) -> Option<u64> {
    let count = desks.len() as u64;
    let after = last + 1..=count;
    let round = 1..=last;
    after.chain(round).find(|member| desks[*member as usize - 1].is_some())
}

fn serve(pool: &[u64], request: Request) -> Planned<Outcome> {
    match request {
        Request::Put(key, value) => put(pool, LIST_WORDS, key, value),
        Request::Fetch(key) => fetch(pool, key).map(|outcome| (outcome, Vec::new())),
        Request::Delete(key) => delete(pool, LIST_WORDS, key),
    }
}
