//! The calls as C sees them: every field of every answer against the model, with kinds by their numbers.

use crate::model;
use crate::model::check::Checked;
use crate::model::events::LIST_WORDS;
use crate::model::recover::Recovery;
use crate::model::{Outcome, Planned};
use crate::support::damage::damage;
use crate::support::grow::grown_pool;
use crate::support::random::Random;
use crate::support::{each_seed, rubbish};

#[derive(Clone, Copy, Debug, PartialEq, Eq)]
#[repr(C)]
struct Reply {
    kind: u64,
    events: u64,
    value: u64,
}

#[derive(Clone, Copy, Debug, PartialEq, Eq)]
#[repr(C)]
struct Verdict {
    kind: u64,
    number: u64,
    records: u64,
}

#[derive(Clone, Copy, Debug, PartialEq, Eq)]
#[repr(C)]
struct TurnReply {
    kind: u64,
    member: u64,
    events: u64,
    last: u64,
    value: u64,
}

extern "C" {
    fn ombykape_format(pool: *const u64, pool_len: usize, list: *mut u64, list_len: usize, capacity: u64) -> Reply;
    fn ombykape_recover(pool: *const u64, pool_len: usize, list: *mut u64, list_len: usize) -> Reply;
    fn ombykape_fetch(pool: *const u64, pool_len: usize, key: u64) -> Reply;
    fn ombykape_put(pool: *const u64, pool_len: usize, list: *mut u64, list_len: usize, key: u64, value: u64) -> Reply;
    fn ombykape_delete(pool: *const u64, pool_len: usize, list: *mut u64, list_len: usize, key: u64) -> Reply;
    fn ombykape_check(pool: *const u64, pool_len: usize, marks: *mut u8, marks_len: usize) -> Verdict;
    fn ombykape_carry_out(pool: *mut u64, pool_len: usize, list: *const u64, list_len: usize, n: u64) -> Reply;
    fn ombykape_submit_fetch(desks: *mut [u64; 3], desks_len: usize, member: u64, key: u64) -> Reply;
    fn ombykape_turn(
        pool: *mut u64,
        pool_len: usize,
        list: *mut u64,
        list_len: usize,
        desks: *mut [u64; 3],
        desks_len: usize,
        last: u64,
    ) -> TurnReply;
}

const REFUSED: u64 = 0;
const FORMATTED: u64 = 6;
const CLEAN: u64 = 7;
const RECOVERED: u64 = 8;
const SOUND: u64 = 9;
const FAULT: u64 = 10;
const DONE: u64 = 11;
const ACCEPTED: u64 = 12;
const IDLE: u64 = 13;

fn reply(kind: u64, events: u64, value: u64) -> Reply {
    Reply { kind, events, value }
}

fn turn_reply(kind: u64, member: u64, events: u64, last: u64, value: u64) -> TurnReply {
    TurnReply {
        kind,
        member,
        events,
        last,
        value,
    }
}

/// Kind and value of an outcome; a kind without a value has 0.
fn kind_of(outcome: Outcome) -> (u64, u64) {
    match outcome {
        Outcome::New => (1, 0),
        Outcome::Replaced => (2, 0),
        Outcome::Removed => (3, 0),
        Outcome::Absent => (4, 0),
        Outcome::Found(value) => (5, value),
    }
}

/// The reply that a planning call should give.
fn reply_of<T: Copy>(planned: Planned<T>, kind: impl Fn(T) -> (u64, u64)) -> Reply {
    match planned {
        Ok((answer, events)) => {
            let (kind, value) = kind(answer);
            reply(kind, events.len() as u64, value)
        }
        Err(number) => reply(REFUSED, 0, number),
    }
}

fn recovery_kind(recovery: Recovery) -> (u64, u64) {
    match recovery {
        Recovery::Clean => (CLEAN, 0),
        Recovery::Recovered { pairs } => (RECOVERED, pairs),
    }
}

/// The planning calls on one pool, each field compared.
fn compare_planning(pool: &[u64], list_len: usize, key: u64) {
    let (words, len) = (pool.as_ptr(), pool.len());
    let mut list = vec![0; list_len];
    let at = list.as_mut_ptr();
    // SAFETY: pointers and lengths are those of live slices, and the written ones are borrowed by no one else.
    unsafe {
        let put = ombykape_put(words, len, at, list_len, key, 9);
        assert_eq!(put, reply_of(model::put::put(pool, list_len, key, 9), kind_of));
        let delete = ombykape_delete(words, len, at, list_len, key);
        assert_eq!(delete, reply_of(model::put::delete(pool, list_len, key), kind_of));
        let fetch = ombykape_fetch(words, len, key);
        assert_eq!(
            fetch,
            reply_of(model::descend::fetch(pool, key).map(|outcome| (outcome, Vec::new())), kind_of)
        );
        let recover = ombykape_recover(words, len, at, list_len);
        assert_eq!(recover, reply_of(model::recover::recover(pool, list_len), recovery_kind));
        let format = ombykape_format(words, len, at, list_len, key % 12);
        assert_eq!(
            format,
            reply_of(model::header::format(len, list_len, key % 12), |()| (FORMATTED, 0))
        );
    }
}

fn compare_check(pool: &[u64], marks_len: usize) {
    let mut marks = vec![0; marks_len];
    let expected = match model::check::check(pool, &mut marks.clone()) {
        Ok(Checked::Sound { nodes, records }) => Verdict {
            kind: SOUND,
            number: nodes,
            records,
        },
        Ok(Checked::Fault { node }) => Verdict {
            kind: FAULT,
            number: node,
            records: 0,
        },
        Err(number) => Verdict {
            kind: REFUSED,
            number,
            records: 0,
        },
    };
    // SAFETY: as above.
    let verdict = unsafe { ombykape_check(pool.as_ptr(), pool.len(), marks.as_mut_ptr(), marks_len) };
    assert_eq!(verdict, expected);
}

fn some_pool(random: &mut Random) -> Vec<u64> {
    match random.below(3) {
        0 => rubbish::plausible(random),
        1 => rubbish::headed(random),
        _ => {
            let mut pool = grown_pool(random.between(1, 9), 0, random).proved;
            if random.percent(60) {
                damage(&mut pool, random);
            }
            pool
        }
    }
}

#[test]
fn planning_and_check() {
    each_seed("planning_and_check", 3000, |random| {
        let pool = some_pool(random);
        for _ in 0..4 {
            compare_planning(&pool, random.pick(&[371, 372, 372, 372]), random.below(60));
        }
        compare_check(&pool, random.place(14));
    });
}

#[test]
fn carrying_out() {
    let (mut pool, list) = (vec![0; 9], [1 << 56 | 8, 5, 2 << 56 | 1, 7, 3 << 56, 0, 2 << 56 | 2, 0]);
    // SAFETY: as above.
    let mut carry = |n| unsafe { ombykape_carry_out(pool.as_mut_ptr(), pool.len(), list.as_ptr(), list.len(), n) };
    for n in 1..=3 {
        assert_eq!(carry(n), reply(DONE, 1, 0));
    }
    for n in [0, 4, 5, u64::MAX] {
        assert_eq!(carry(n), reply(REFUSED, 0, 12));
    }
    assert_eq!(pool, [0, 0, 0, 0, 0, 0, 0, 0, 5]);
}

#[test]
fn desks() {
    let mut pool = grown_pool(1, 0, &mut Random::from_seed(0)).proved;
    let mut list = [0; LIST_WORDS];
    let mut desks = [[0; 3]; 2];
    // SAFETY: as above; a desk is three numbers laid out as C does.
    let mut submit = |member| unsafe { ombykape_submit_fetch(desks.as_mut_ptr(), 2, member, 1 << 40) };
    assert_eq!(submit(2), reply(ACCEPTED, 0, 0));
    assert_eq!(submit(2), reply(REFUSED, 0, 10));
    assert_eq!(submit(3), reply(REFUSED, 0, 9));
    assert_eq!(desks, [[0, 0, 0], [2, 1 << 40, 0]]);
    // SAFETY: as above.
    let mut turn = |list_len, last| unsafe {
        ombykape_turn(
            pool.as_mut_ptr(),
            pool.len(),
            list.as_mut_ptr(),
            list_len,
            desks.as_mut_ptr(),
            2,
            last,
        )
    };
    assert_eq!(turn(371, 0), turn_reply(REFUSED, 0, 0, 0, 1));
    assert_eq!(turn(372, 3), turn_reply(REFUSED, 0, 0, 3, 9));
    assert_eq!(turn(372, 0), turn_reply(4, 2, 0, 2, 0));
    assert_eq!(turn(372, 2), turn_reply(IDLE, 0, 0, 2, 0));
}
