//! Submit and turn against the model, and the promise to every member: served by the M-th turn, with no other served twice
//! before, at most M times 186 events, and answered by the map.

mod model;
mod support;

use model::desks::{Desk, Request, Turn};
use model::events::{write_list, LIST_WORDS};
use model::formed::{map_of, value_of, with, without, Map};
use model::header::POOL_LEAST;
use model::Outcome;
use ombykape::{calls, Refusal};
use support::both::fresh_list;
use support::damage::damage;
use support::grow::grown_pool;
use support::random::Random;
use support::translate::{desk, outcome, to_request};
use support::{each_seed, rubbish};

const EVENTS_MOST: u64 = 186;

/// Pool, desks and last served of the proved code and of the model.
struct Row {
    pool: Vec<u64>,
    model_pool: Vec<u64>,
    desks: Vec<ombykape::Desk>,
    model_desks: Vec<Desk>,
    last: u64,
}

impl Row {
    fn new(pool: Vec<u64>, members: usize) -> Row {
        let model_pool = pool.clone();
        Row {
            pool,
            model_pool,
            desks: vec![ombykape::Desk::FRESH; members],
            model_desks: vec![None; members],
            last: 0,
        }
    }

    fn submit(&mut self, member: u64, request: Request) -> Result<(), u64> {
        let expected = model::desks::submit(&mut self.model_desks, member, request);
        let answer = calls::submit(&mut self.desks, member, to_request(request)).map_err(Refusal::number);
        assert_eq!(answer, expected);
        self.compare();
        expected
    }

    /// A turn on both; the list is compared word for word.
    fn turn(&mut self, list_len: usize) -> Result<Turn, u64> {
        let mut list = fresh_list(list_len);
        let mut expected_list = list.clone();
        let expected = model::desks::turn(&mut self.model_pool, list_len, &mut self.model_desks, self.last);
        let answer = calls::turn(&mut self.pool, &mut list, &mut self.desks, self.last);
        if let Ok(turn) = &expected {
            write_list(&mut expected_list, &turn.events);
        }
        let summed = expected
            .clone()
            .map(|turn| (turn.served, turn.member, turn.events.len() as u64, turn.last));
        assert_eq!(answer.map(told).map_err(Refusal::number), summed);
        assert!(list == expected_list, "the list");
        self.compare();
        if let Ok(turn) = &expected {
            self.last = turn.last;
        }
        expected
    }

    fn compare(&self) {
        assert!(self.pool == self.model_pool, "the pools differ");
        for (proved, model) in self.desks.iter().zip(&self.model_desks) {
            assert_eq!(desk(*proved), *model);
            assert!(
                model.is_some() || *proved == ombykape::Desk::FRESH,
                "an emptied desk is the fresh one"
            );
        }
    }
}

/// A turn of the crate as a tuple in the model's words.
fn told(turn: ombykape::Turn) -> (Option<Result<Outcome, u64>>, u64, u64, u64) {
    let served = match turn.turned {
        ombykape::Turned::Served(answer) => Some(answer.map(outcome).map_err(Refusal::number)),
        ombykape::Turned::Idle => None,
    };
    (served, turn.member, turn.events, turn.last)
}

fn some_request(random: &mut Random) -> Request {
    let key = if random.percent(80) { random.below(60) } else { random.next() };
    match random.below(4) {
        0 | 1 => Request::Put(key, random.next()),
        2 => Request::Fetch(key),
        _ => Request::Delete(key),
    }
}

/// The answer by the map, and the map after it.
fn by_map(map: &Map, request: Request) -> (Outcome, Map) {
    let present = |key| value_of(map, key);
    match request {
        Request::Put(key, value) if present(key).is_some() => (Outcome::Replaced, with(map, key, value)),
        Request::Put(key, value) => (Outcome::New, with(map, key, value)),
        Request::Delete(key) if present(key).is_some() => (Outcome::Removed, without(map, key)),
        Request::Delete(_) => (Outcome::Absent, map.clone()),
        Request::Fetch(key) => (present(key).map_or(Outcome::Absent, Outcome::Found), map.clone()),
    }
}

/// What a waiting member has seen since it submitted.
#[derive(Clone, Default)]
struct Waiting {
    turns: u64,
    events: u64,
    served: Vec<u64>,
}

/// A sentence of the promise that a turn has broken.
#[derive(Debug, PartialEq, Eq)]
enum Broken {
    /// A member is not served by the M-th turn.
    Late,
    /// Another desk is served twice before a member that waits.
    Twice,
    /// The turns that a member waits for carry out more than M times 186 events.
    Events,
    /// A turn is idle while a member waits, or serves an empty desk.
    Unasked,
    /// An answer, or a pool after it, that is not the map's.
    Map,
}

/// The members' promise, kept up turn by turn.
struct Promise {
    map: Map,
    waiting: Vec<Option<(Request, Waiting)>>,
}

impl Promise {
    fn new(pool: &[u64], members: usize) -> Promise {
        Promise {
            map: map_of(pool).expect("a well-formed pool"),
            waiting: vec![None; members],
        }
    }

    fn accepted(&mut self, member: u64, request: Request) {
        self.waiting[member as usize - 1] = Some((request, Waiting::default()));
    }

    /// Whether the promise holds at a turn that has been taken.
    fn turned(&mut self, turn: &Turn, pool: &[u64]) -> Result<(), Broken> {
        let members = self.waiting.len() as u64;
        for (member, desk) in (1..).zip(&mut self.waiting) {
            let Some((_, waiting)) = desk else { continue };
            waiting.turns += 1;
            waiting.events += turn.events.len() as u64;
            hold(waiting.turns < members || turn.member == member, Broken::Late)?;
            hold(waiting.events <= members * EVENTS_MOST, Broken::Events)?;
            hold(!waiting.served.contains(&turn.member), Broken::Twice)?;
            waiting.served.push(turn.member);
        }
        self.served(turn, pool)
    }

    /// The member served had a full desk, and its answer and the pool after it are the map's.
    fn served(&mut self, turn: &Turn, pool: &[u64]) -> Result<(), Broken> {
        let Some(answer) = turn.served else {
            return hold(self.waiting.iter().all(|waiting| waiting.is_none()), Broken::Unasked);
        };
        let (request, _) = self.waiting[turn.member as usize - 1].take().ok_or(Broken::Unasked)?;
        let (outcome, after) = by_map(&self.map, request);
        match answer {
            Ok(answer) => {
                hold(answer == outcome, Broken::Map)?;
                self.map = after;
            }
            Err(number) => hold((number, outcome) == (5, Outcome::New), Broken::Map)?,
        }
        hold(map_of(pool).as_ref() == Some(&self.map), Broken::Map)
    }
}

fn hold(kept: bool, broken: Broken) -> Result<(), Broken> {
    kept.then_some(()).ok_or(broken)
}

/// A step of a row: a submit, to a desk that may be full, or a turn.
#[derive(Clone, Copy)]
enum Step {
    Submit(u64, Request),
    Turn,
}

/// Takes the steps, each turn handed what `from` makes of the last served, and holds each turn to the promise.
fn kept(pool: Vec<u64>, members: u64, steps: &[Step], from: fn(u64) -> u64) -> Result<(), Broken> {
    let mut row = Row::new(pool, members as usize);
    let mut promise = Promise::new(&row.pool, members as usize);
    for step in steps {
        match *step {
            Step::Submit(member, request) => {
                if row.submit(member, request).is_ok() {
                    promise.accepted(member, request);
                }
            }
            Step::Turn => {
                row.last = from(row.last);
                let turn = row.turn(LIST_WORDS).expect("a turn");
                promise.turned(&turn, &row.pool)?;
            }
        }
    }
    Ok(())
}

#[test]
fn rows_of_submits_and_turns() {
    each_seed("rows_of_submits_and_turns", 3000, |random| {
        let members = random.between(1, 16);
        let pool = grown_pool(random.between(1, 20), 0, random).proved;
        let busy = random.pick(&[20, 50, 80]);
        let some_step = |_| match random.percent(busy) {
            true => Step::Submit(random.between(1, members), some_request(random)),
            false => Step::Turn,
        };
        let steps: Vec<Step> = (0..120).map(some_step).collect();
        assert_eq!(kept(pool, members, &steps, |last| last), Ok(()));
    });
}

/// Rows in which every member asks again at once. The promise holds of the desks; where each turn looks from desk 1 it is broken
/// at the second turn: of two members the other is late, and of more the first is served twice.
#[test]
fn looking_from_desk_1_each_time_is_caught() {
    for members in 2..=16 {
        let pool = grown_pool(3, 0, &mut Random::from_seed(members)).proved;
        let asked = (1..=members).map(|member| Step::Submit(member, Request::Fetch(member)));
        let steps: Vec<Step> = asked.chain([Step::Turn]).cycle().take(60 * (members as usize + 1)).collect();
        assert_eq!(kept(pool.clone(), members, &steps, |last| last), Ok(()));
        let broken = if members == 2 { Broken::Late } else { Broken::Twice };
        assert_eq!(kept(pool, members, &steps, |_| 0), Err(broken));
    }
}

/// Rubbish: any pool, any number of desks, members and last served out of range, lists of every length.
#[test]
fn rubbish_on_the_desks() {
    each_seed("rubbish_on_the_desks", 4000, |random| {
        let pool = some_pool(random);
        let mut row = Row::new(pool, random.place(19));
        for _ in 0..12 {
            let member = if random.percent(90) { random.below(19) } else { random.next() };
            row.submit(member, some_request(random)).ok();
            row.last = if random.percent(90) { random.below(19) } else { random.next() };
            row.turn(random.pick(&[0, 371, 372, 373, 372, 372])).ok();
        }
    });
}

/// A sound pool, a damaged one, or rubbish.
fn some_pool(random: &mut Random) -> Vec<u64> {
    let mut pool = match random.below(4) {
        0 => rubbish::plausible(random),
        1 => rubbish::headed(random),
        2 => {
            let len = random.place(201);
            rubbish::words(len, random)
        }
        _ => grown_pool(random.between(1, 10), 0, random).proved,
    };
    if pool.len() >= POOL_LEAST && random.percent(50) {
        damage(&mut pool, random);
    }
    pool
}

/// A record of any other kind than 1 to 3 is an empty desk.
#[test]
fn desks_of_other_kinds_are_empty() {
    for kind in [0, 4, 255, 256, 257, u64::MAX] {
        // SAFETY: a desk is three numbers laid out as C does, and any numbers make one.
        let strange: ombykape::Desk = unsafe { std::mem::transmute([kind, 5, 6]) };
        let mut desks = [strange; 3];
        let mut pool = grown_pool(3, 0, &mut Random::from_seed(0)).proved;
        let mut list = vec![0; LIST_WORDS];
        let idle = calls::turn(&mut pool, &mut list, &mut desks, 1).expect("a turn");
        assert_eq!(told(idle), (None, 0, 0, 1));
        assert!(desks.iter().all(|desk| *desk == strange), "an idle turn leaves the desks");
        calls::submit(&mut desks, 2, ombykape::Request::Fetch(1)).expect("an empty desk");
        assert_eq!(desks[1].holding(), Some(ombykape::Request::Fetch(1)));
        assert_eq!(calls::turn(&mut pool, &mut list, &mut desks, 2).expect("a turn").member, 2);
        assert_eq!(desks, [strange, ombykape::Desk::FRESH, strange]);
    }
}
