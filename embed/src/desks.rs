//! The desks of several members over one pool.

use crate::medium::Medium;
use crate::{calls, Desk, Pool, Refusal, Request, Turn, MEMBERS_MOST};

/// A pool with a desk for each of its members, numbered from 1, and each turn carried out by the pool's medium.
///
/// The proved turn carries its events out itself, by plain stores in the memory lent to it. On persistent memory those stores
/// would lack their flushes and fences. So the turn is lent a private copy of the pool, which starts out the same as the pool
/// and which no one else changes; it leaves its events in the list, and they are then carried out on the pool's own words by
/// the medium, before the turn is answered. Both have then seen the same events from the same start, so the copy stays in
/// step, and a cut finds the pool as 01 reads a cut in a turn: from the pool handed in and those events in their order.
pub struct Desks<'a, M: Medium> {
    pool: Pool<'a, M>,
    copy: Vec<u64>,
    desks: Vec<Desk>,
    last: u64,
}

impl<'a, M: Medium> Desks<'a, M> {
    /// Empty desks over a pool: 1 to 16, any other number is refusal 9.
    pub fn new(pool: Pool<'a, M>, members: usize) -> Result<Desks<'a, M>, Refusal> {
        if !(1..=MEMBERS_MOST).contains(&members) {
            return Err(Refusal::NoDesk);
        }
        Ok(Desks {
            copy: pool.words.to_vec(),
            pool,
            desks: vec![Desk::FRESH; members],
            last: 0,
        })
    }

    /// Lays a request on a member's desk; refusal 10 if that is full.
    pub fn submit(&mut self, member: u64, request: Request) -> Result<(), Refusal> {
        calls::submit(&mut self.desks, member, request)
    }

    /// Takes a turn, and answers once every event of it has been carried out by the pool's medium.
    pub fn turn(&mut self) -> Result<Turn, Refusal> {
        let carrier = &mut self.pool.carrier;
        let turn = calls::turn(&mut self.copy, &mut carrier.list, &mut self.desks, self.last)?;
        carrier.carry(self.pool.words, turn.events)?;
        self.last = turn.last;
        Ok(turn)
    }

    /// The desks as they stand.
    pub fn desks(&self) -> &[Desk] {
        &self.desks
    }

    /// The pool as it stands.
    pub fn pool(&self) -> &Pool<'a, M> {
        &self.pool
    }
}

#[cfg(test)]
mod tests {
    use super::Desks;
    use crate::medium::Counting;
    use crate::{words_of, Outcome, Pool, Refusal, Request, Turned};

    const CAPACITY: u64 = 40;

    #[test]
    fn the_copy_stays_in_step_and_the_medium_sees_every_event() {
        let mut words = vec![0; words_of(CAPACITY)];
        let pool = Pool::format(&mut words, Counting::default(), CAPACITY).unwrap();
        let counted = |desks: &Desks<'_, Counting>| {
            let medium = desks.pool().medium();
            medium.stores + medium.flushes + medium.fences
        };
        let mut desks = Desks::new(pool, 3).unwrap();
        for key in 0..100 {
            let before = counted(&desks);
            desks.submit(key % 3 + 1, Request::Put(key * 7 % 101, key)).unwrap();
            let turn = desks.turn().unwrap();
            assert_eq!((turn.member, turn.turned), (key % 3 + 1, Turned::Served(Ok(Outcome::New))));
            assert_eq!(counted(&desks) - before, turn.events);
            assert_eq!(desks.copy, desks.pool.words);
        }
        assert_eq!(desks.turn().unwrap().turned, Turned::Idle);
    }

    #[test]
    fn there_are_1_to_16_members() {
        for (members, there) in [(0, false), (1, true), (16, true), (17, false)] {
            let mut words = vec![0; words_of(1)];
            let pool = Pool::format(&mut words, Counting::default(), 1).unwrap();
            assert_eq!(Desks::new(pool, members).err(), (!there).then_some(Refusal::NoDesk));
        }
    }
}
