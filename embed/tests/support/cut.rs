//! Cuts: the memories that one may leave by the rule of loss, each recovered by the proved code, cut again, and judged.

use super::random::Random;
use crate::model::events::{carry, read_list, Event, LIST_WORDS};
use crate::model::formed::{map_of, Map};
use crate::model::header::{total_of, NODES_OFFSET, WORD_CAPACITY, WORD_COMMIT, WORD_USED};
use crate::model::loss::{held, Held};
use ombykape::{calls, Checked, Recovery, Refusal};

/// What a change starts from and leads to.
pub struct Change {
    pub start: Vec<u64>,
    pub events: Vec<Event>,
    pub before: Option<Map>,
    pub after: Option<Map>,
    end: Vec<u64>,
}

/// What stands there after recovery.
#[derive(Clone, Copy, Debug, PartialEq, Eq)]
pub enum Found {
    Before,
    After,
    NoPool,
    /// Refused, not sound, or another map.
    Neither,
}

/// How much is tried of a recovery that is cut in its turn.
#[derive(Clone, Copy)]
pub struct Nested {
    /// The cuts: all if there are no more than this, otherwise so many by chance.
    pub cuts: usize,
    /// The memories of each cut: all if there are no more than this, otherwise so many of them.
    pub memories: u64,
}

/// How often each was found behind one cut of the change, and behind the cuts nested in it.
#[derive(Clone, Copy, Debug, Default)]
pub struct PerCut {
    pub before: u64,
    pub after: u64,
    pub no_pool: u64,
    pub neither: u64,
}

impl Change {
    pub fn new(start: &[u64], events: Vec<Event>, before: Option<Map>, after: Option<Map>) -> Change {
        let mut end = start.to_vec();
        carry(&mut end, &events);
        Change {
            start: start.to_vec(),
            events,
            before,
            after,
            end,
        }
    }

    /// What stands there once the proved code has finished what a cut left.
    pub fn judge(&self, memory: &[u64]) -> Found {
        let mut list = [0; LIST_WORDS];
        match calls::recover(memory, &mut list) {
            Err(Refusal::NoPool) => Found::NoPool,
            Err(_) => Found::Neither,
            Ok(Recovery::Clean) => self.read(memory),
            Ok(Recovery::Recovered { events, .. }) => {
                let mut finished = memory.to_vec();
                calls::carry_all(&mut finished, &list, events);
                self.read(&finished)
            }
        }
    }

    /// What a recovered pool holds.
    fn read(&self, pool: &[u64]) -> Found {
        let mut marks = vec![0; pool[WORD_CAPACITY] as usize];
        if !matches!(calls::check(pool, &mut marks), Ok(Checked::Sound { .. })) {
            return Found::Neither;
        }
        if self.before.is_some() && reads_alike(pool, &self.start) {
            return Found::Before;
        }
        if reads_alike(pool, &self.end) {
            return Found::After;
        }
        match map_of(pool) {
            None => Found::Neither,
            map if map == self.before => Found::Before,
            map if map == self.after => Found::After,
            _ => Found::Neither,
        }
    }

    /// Tries the cuts behind each event, from none to all, with so many memories each, and those nested in them.
    pub fn survey(&self, most: u64, depths: &[Nested], random: &mut Random) -> Vec<PerCut> {
        let mut cuts = vec![PerCut::default(); self.events.len() + 1];
        for (n, per_cut) in cuts.iter_mut().enumerate() {
            for memory in memories(&self.start, &self.events[..n], most, random) {
                let found = self.judge(&memory);
                per_cut.count(found);
                self.nested(&memory, found, depths, per_cut, random);
            }
        }
        cuts
    }

    /// Cuts the recovery of a memory, and its recovery again; each must lead to what the first would have.
    fn nested(&self, memory: &[u64], found: Found, depths: &[Nested], per_cut: &mut PerCut, random: &mut Random) {
        let events = planned_recovery(memory);
        if depths.is_empty() || events.is_empty() {
            return;
        }
        for n in some_cuts(events.len(), depths[0].cuts, random) {
            for inner in memories(memory, &events[..n], depths[0].memories, random) {
                let again = self.judge(&inner);
                per_cut.count(if again == found { found } else { Found::Neither });
                self.nested(&inner, found, &depths[1..], per_cut, random);
            }
        }
    }
}

impl PerCut {
    fn count(&mut self, found: Found) {
        match found {
            Found::Before => self.before += 1,
            Found::After => self.after += 1,
            Found::NoPool => self.no_pool += 1,
            Found::Neither => self.neither += 1,
        }
    }

    /// How many memories were tried.
    pub fn tried(&self) -> u64 {
        self.before + self.after + self.no_pool + self.neither
    }
}

/// The events by which the proved code recovers a memory; none if it is clean or refused.
pub fn planned_recovery(memory: &[u64]) -> Vec<Event> {
    let mut list = [0; LIST_WORDS];
    match calls::recover(memory, &mut list) {
        Ok(Recovery::Recovered { events, .. }) => read_list(&list, events),
        _ => Vec::new(),
    }
}

/// Whether two clean pools are the same in every word that a map is read from: the header and the nodes in use.
fn reads_alike(one: &[u64], other: &[u64]) -> bool {
    let nodes = NODES_OFFSET as usize..total_of(one[WORD_USED].min(one[WORD_CAPACITY])) as usize;
    one[..=WORD_COMMIT] == other[..=WORD_COMMIT] && one[nodes.clone()] == other[nodes]
}

/// Numbers of events behind which a recovery is cut.
fn some_cuts(events: usize, most: usize, random: &mut Random) -> Vec<usize> {
    let mut cuts: Vec<usize> = (0..=events).collect();
    if cuts.len() > most {
        random.shuffle(&mut cuts);
        cuts.truncate(most);
    }
    cuts
}

/// Memories that a cut may leave: all if they are few; otherwise all old, all new, one word old or new alone, and others.
pub fn memories(start: &[u64], events: &[Event], most: u64, random: &mut Random) -> Vec<Vec<u64>> {
    let held: Vec<Held> = held(start, events);
    let all = held
        .iter()
        .fold(1u128, |all, held| all.saturating_mul(held.values.len() as u128));
    let choices = if all <= most as u128 {
        every_choice(&held)
    } else {
        some_choices(&held, most as usize, random)
    };
    let laid = choices.iter().map(|choice| {
        let mut memory = start.to_vec();
        for (held, place) in held.iter().zip(choice) {
            memory[held.word] = held.values[*place];
        }
        memory
    });
    laid.collect()
}

/// Every choice of a value for each word, as places in its values.
fn every_choice(held: &[Held]) -> Vec<Vec<usize>> {
    let mut choices = vec![Vec::new()];
    for word in held {
        let longer = choices.iter().flat_map(|choice: &Vec<usize>| {
            (0..word.values.len()).map(|place| choice.iter().copied().chain([place]).collect::<Vec<usize>>())
        });
        choices = longer.collect();
    }
    choices
}

fn some_choices(held: &[Held], most: usize, random: &mut Random) -> Vec<Vec<usize>> {
    let old: Vec<usize> = vec![0; held.len()];
    let new: Vec<usize> = held.iter().map(|held| held.values.len() - 1).collect();
    let mut choices = Vec::new();
    for i in (0..held.len()).filter(|i| held[*i].values.len() > 1) {
        let (mut one_new, mut one_old) = (old.clone(), new.clone());
        one_new[i] = new[i];
        one_old[i] = old[i];
        choices.extend([one_new, one_old]);
    }
    random.shuffle(&mut choices);
    choices.truncate(most / 2);
    choices.extend([old, new]);
    while choices.len() < most {
        choices.push(held.iter().map(|held| random.place(held.values.len())).collect());
    }
    choices
}
