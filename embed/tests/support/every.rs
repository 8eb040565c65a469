//! Every planning call on one pool, by the proved code and the model, with a note of the answers met.

use super::both;
use super::damage::ODD_NUMBERS;
use super::random::Random;
use crate::model::check::Checked;
use crate::model::events::carry;
use crate::model::header::{NODES_OFFSET, POOL_LEAST, WORD_CAPACITY};
use crate::model::recover::Recovery;
use crate::model::{Outcome, Planned};
use std::collections::BTreeMap;

/// The answers met and how often, to show that the pools tried are worth it.
#[derive(Default)]
pub struct Met(BTreeMap<String, u64>);

impl Met {
    fn note(&mut self, call: &str, answer: Result<&str, u64>) {
        let name = match answer {
            Ok(answer) => format!("{call} {answer}"),
            Err(number) => format!("{call} {number}"),
        };
        *self.0.entry(name).or_default() += 1;
    }

    /// A call met each of these answers, parted by commas: outcomes or numbers of refusal.
    pub fn assert_met(&self, call: &str, answers: &str) {
        for answer in answers.split(", ") {
            let name = format!("{call} {answer}");
            assert!(self.0.contains_key(&name), "never met: {name}; met: {:?}", self.0);
        }
    }
}

/// What a put or a delete comes to: its outcome, or a split.
fn changed(planned: &Planned<Outcome>) -> Result<&'static str, u64> {
    match planned {
        Ok((_, events)) if events.len() > 7 => Ok("split"),
        Ok((outcome, _)) => fetched(*outcome),
        Err(number) => Err(*number),
    }
}

fn fetched(outcome: Outcome) -> Result<&'static str, u64> {
    match outcome {
        Outcome::New => Ok("new"),
        Outcome::Replaced => Ok("replaced"),
        Outcome::Removed => Ok("removed"),
        Outcome::Absent => Ok("absent"),
        Outcome::Found(_) => Ok("found"),
    }
}

fn checked(checked: Checked) -> Result<&'static str, u64> {
    match checked {
        Checked::Sound { .. } => Ok("sound"),
        Checked::Fault { node: 0 } => Ok("fault 0"),
        Checked::Fault { .. } => Ok("fault"),
    }
}

fn recovered(planned: &Planned<Recovery>) -> Result<&'static str, u64> {
    match planned {
        Ok((Recovery::Clean, _)) => Ok("clean"),
        Ok((Recovery::Recovered { .. }, _)) => Ok("recovered"),
        Err(number) => Err(*number),
    }
}

/// A key of some node, one beside it, or any other.
pub fn some_key(pool: &[u64], random: &mut Random) -> u64 {
    if pool.len() > POOL_LEAST && random.percent(80) {
        let nodes = NODES_OFFSET as usize;
        let word = nodes + random.place(pool.len() - nodes);
        return pool[word].wrapping_add(random.below(3)).wrapping_sub(1);
    }
    if random.percent(50) {
        random.pick(&ODD_NUMBERS)
    } else {
        random.next()
    }
}

/// Makes every planning call on a pool, so many times; now and then the events are carried out and more calls follow.
pub fn every_call(pool: &mut [u64], times: u64, met: &mut Met, random: &mut Random) {
    for _ in 0..times {
        let list_len = random.pick(&[0, 1, 371, 372, 373, 372, 372, 372, 372, 400]);
        let key = some_key(pool, random);
        met.note("fetch", both::fetch(pool, key).and_then(fetched));
        met.note("delete", changed(&both::delete(pool, list_len, key)));
        let put = both::put(pool, list_len, key, random.next());
        met.note("put", changed(&put));
        if random.percent(30) {
            carry(pool, both::events_of(&put));
        }
        let capacity = pool.get(WORD_CAPACITY).copied().unwrap_or(0).min(200);
        let marks_len = (capacity + random.below(4)).saturating_sub(2);
        met.note("check", both::check(pool, marks_len as usize).and_then(checked));
        let recovery = both::recover(pool, list_len);
        met.note("recover", recovered(&recovery));
        if random.percent(30) {
            carry(pool, both::events_of(&recovery));
        }
        let wanted = random.pick(&[0, 1, 2, capacity, 40_000, 40_001, 1 << 60, u64::MAX]);
        met.note("format", both::format(pool, list_len, wanted).map(|_| "formatted"));
    }
}
