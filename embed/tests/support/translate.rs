//! The crate's answers in the model's words.

use crate::model::check::Checked;
use crate::model::desks::{Desk, Request};
use crate::model::recover::Recovery;
use crate::model::Outcome;

pub fn outcome(outcome: ombykape::Outcome) -> Outcome {
    match outcome {
        ombykape::Outcome::New => Outcome::New,
        ombykape::Outcome::Replaced => Outcome::Replaced,
        ombykape::Outcome::Removed => Outcome::Removed,
        ombykape::Outcome::Absent => Outcome::Absent,
        ombykape::Outcome::Found(value) => Outcome::Found(value),
        other => panic!("the model has no outcome {other:?}"),
    }
}

/// An outcome and the count of events, or the number of a refusal.
pub fn answer(answer: Result<ombykape::Answer, ombykape::Refusal>) -> Result<(Outcome, u64), u64> {
    match answer {
        Ok(answer) => Ok((outcome(answer.outcome), answer.events)),
        Err(refusal) => Err(refusal.number()),
    }
}

pub fn recovery(recovery: Result<ombykape::Recovery, ombykape::Refusal>) -> Result<(Recovery, u64), u64> {
    match recovery {
        Ok(ombykape::Recovery::Clean) => Ok((Recovery::Clean, 0)),
        Ok(ombykape::Recovery::Recovered { pairs, events }) => Ok((Recovery::Recovered { pairs }, events)),
        Err(refusal) => Err(refusal.number()),
    }
}

pub fn checked(checked: Result<ombykape::Checked, ombykape::Refusal>) -> Result<Checked, u64> {
    match checked {
        Ok(ombykape::Checked::Sound { nodes, records }) => Ok(Checked::Sound { nodes, records }),
        Ok(ombykape::Checked::Fault { node }) => Ok(Checked::Fault { node }),
        Err(refusal) => Err(refusal.number()),
    }
}

/// A request in the crate's words.
pub fn to_request(request: Request) -> ombykape::Request {
    match request {
        Request::Put(key, value) => ombykape::Request::Put(key, value),
        Request::Fetch(key) => ombykape::Request::Fetch(key),
        Request::Delete(key) => ombykape::Request::Delete(key),
    }
}

/// A desk of the crate as the model has it.
pub fn desk(desk: ombykape::Desk) -> Desk {
    desk.holding().map(|request| match request {
        ombykape::Request::Put(key, value) => Request::Put(key, value),
        ombykape::Request::Fetch(key) => Request::Fetch(key),
        ombykape::Request::Delete(key) => Request::Delete(key),
    })
}
