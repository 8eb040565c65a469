//! Interleaved rounds: in each round every peer is asked the same rows, one peer after the other, operation by operation.

use crate::clock::nanoseconds_each;
use crate::keys::{Asked, Random};
use crate::peer::{Entrant, Op};

/// How much is asked in a race.
#[derive(Clone, Copy)]
pub struct Plan {
    pub records: usize,
    pub rounds: usize,
    pub batch: usize,
}

/// A peer's nanoseconds for each request: the mean of its load, and the mean of each round by operation (none where it lacks one).
pub struct Timed {
    pub name: &'static str,
    pub load: f64,
    rounds: [Vec<f64>; Op::ALL.len()],
}

pub struct Race {
    pub plan: Plan,
    pub timed: Vec<Timed>,
}

impl Timed {
    pub fn of(&self, op: Op) -> Option<f64> {
        let rounds = &self.rounds[op as usize];
        (!rounds.is_empty()).then(|| median(rounds.clone()))
    }

    /// The median over the rounds of this peer's time divided by the other's in the same round.
    pub fn ratio(&self, other: &Timed, op: Op) -> Option<f64> {
        let pairs = self.rounds[op as usize].iter().zip(&other.rounds[op as usize]);
        let ratios: Vec<f64> = pairs.map(|(mine, theirs)| mine / theirs).collect();
        (!ratios.is_empty()).then(|| median(ratios))
    }
}

impl Race {
    pub fn named(&self, name: &str) -> Option<&Timed> {
        self.timed.iter().find(|timed| timed.name == name)
    }

    /// Loads every peer with the same random keys, then runs one round untimed and the plan's rounds timed.
    pub fn run(plan: Plan, mut entrants: Vec<Entrant>) -> Race {
        let mut random = Random::new(plan.records as u64);
        let keys = random.row(plan.records);
        let mut timed: Vec<Timed> = entrants
            .iter_mut()
            .map(|entrant| loaded(entrant, &keys, plan.batch))
            .collect();
        for round in 0..=plan.rounds {
            let asked = Asked::new(&mut random, &keys, plan.batch);
            let times = Op::ALL.map(|op| operation(&mut entrants, op, &asked, round));
            for (op, times) in Op::ALL.into_iter().zip(times).filter(|_| round > 0) {
                for (peer, time) in times {
                    timed[peer].rounds[op as usize].push(time);
                }
            }
        }
        Race { plan, timed }
    }
}

fn loaded(entrant: &mut Entrant, keys: &[u64], batch: usize) -> Timed {
    let put = || {
        keys.chunks(batch)
            .for_each(|keys| _ = entrant.peer.batch(Op::PutBack, keys, 0))
    };
    let (load, ()) = nanoseconds_each(keys.len(), put);
    Timed {
        name: entrant.name,
        load,
        rounds: Default::default(),
    }
}

/// One operation of a round by every peer that has it, the first one another in each round. All must come to the same sum.
fn operation(entrants: &mut [Entrant], op: Op, asked: &Asked, round: usize) -> Vec<(usize, f64)> {
    let keys = op.keys(asked);
    let mut times = Vec::with_capacity(entrants.len());
    let mut agreed = None;
    for turn in 0..entrants.len() {
        let at = (turn + round) % entrants.len();
        let Entrant { name, peer } = &mut entrants[at];
        if op == Op::Replace && !peer.replaces() {
            continue;
        }
        peer.batch(Op::Hit, &asked.warming, 0);
        let (time, sum) = nanoseconds_each(keys.len(), || peer.batch(op, keys, round as u64));
        times.push((at, time));
        assert_eq!(
            *agreed.get_or_insert(sum),
            sum,
            "{name} answers otherwise in round {round}: {op:?}"
        );
    }
    times
}

pub fn median(mut numbers: Vec<f64>) -> f64 {
    numbers.sort_by(f64::total_cmp);
    let middle = numbers.len() / 2;
    if numbers.len() % 2 == 1 {
        numbers[middle]
    } else {
        (numbers[middle - 1] + numbers[middle]) / 2.0
    }
}
