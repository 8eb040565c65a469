//! The crate's simulated medium against the model's rule of loss, on planned lists and on events in any order.

use crate::model::events::{write_list, Event};
use crate::model::header::WORD_CAPACITY;
use crate::model::loss::{all_safe, held};
use crate::support::changes::{delete_of, put_of, split_of};
use crate::support::cut::{planned_recovery, Found};
use crate::support::each_seed;
use crate::support::grow::grown_pool;
use crate::support::random::Random;
use crate::support::tall::{build, Shape};
use ombykape::medium::{carry_list, Simulated};
use ombykape::Pool;

fn sorted(mut values: Vec<u64>) -> Vec<u64> {
    values.sort();
    values
}

/// Compares what each word may hold after a cut behind the events.
fn compare(start: &[u64], events: &[Event]) {
    let mut list = vec![0; 2 * events.len()];
    write_list(&mut list, events);
    let mut live = start.to_vec();
    let mut simulated = Simulated::new(start);
    carry_list(&mut live, &list, events.len() as u64, &mut simulated).expect("events that can be carried out");
    let held = held(start, events);
    let mut oldest = start.to_vec();
    for word in &held {
        assert_eq!(
            sorted(simulated.values(word.word)),
            sorted(word.values.clone()),
            "word {}",
            word.word
        );
        oldest[word.word] = word.values[0];
    }
    let loose: Vec<usize> = held
        .iter()
        .filter(|held| held.values.len() > 1)
        .map(|held| held.word)
        .collect();
    let simulated_loose: Vec<usize> = simulated.unsafe_words().iter().map(|(word, _)| *word).collect();
    assert_eq!(simulated_loose, loose);
    assert_eq!(simulated.all_safe(), all_safe(start, events));
    let found = simulated.cut(|_, values| values.len() - 1);
    for word in 0..start.len() {
        let values = held
            .iter()
            .find(|held| held.word == word)
            .map_or(vec![start[word]], |held| held.values.clone());
        assert!(
            values.contains(&found[word]),
            "word {word} is cut to a value that it cannot hold"
        );
    }
}

#[test]
fn planned_lists() {
    each_seed("planned_lists", 20, |random| {
        let pool = grown_pool(random.between(3, 6), 0, random).proved;
        let changes = [
            split_of(1, true, random),
            split_of(2, false, random),
            delete_of(&pool, random.below(20)),
        ];
        for change in changes {
            for n in 0..=change.events.len() {
                compare(&change.start, &change.events[..n]);
            }
        }
    });
}

#[test]
fn the_events_of_a_replacing_put() {
    let mut random = Random::from_seed(0);
    let mut twin = grown_pool(3, 0, &mut random);
    twin.put(7, 70).expect("room");
    let change = put_of(&twin.proved, 7, 71);
    (0..=3).for_each(|n| compare(&change.start, &change.events[..n]));
}

/// Stores to few words in three lines, the last of them partial, flushes and fences, in any order.
#[test]
fn events_in_any_order() {
    each_seed("events_in_any_order", 4000, |random| {
        let start: Vec<u64> = (0..19).map(|_| random.below(3)).collect();
        let count = random.place(40);
        let events: Vec<Event> = (0..count).map(|_| some_event(random)).collect();
        compare(&start, &events);
    });
}

fn some_event(random: &mut Random) -> Event {
    match random.below(5) {
        0 => Event::Fence,
        1 => Event::Flush { line: random.below(3) },
        _ => Event::Store {
            word: random.pick(&[0, 1, 7, 8, 15, 16, 18]),
            value: random.below(4),
        },
    }
}

/// Some of a change's events carried out on live words, by the medium given.
fn carry_some(live: &mut [u64], events: &[Event], medium: &mut Simulated) {
    let mut list = vec![0; 2 * events.len()];
    write_list(&mut list, events);
    carry_list(live, &list, events.len() as u64, medium).expect("events that can be carried out");
}

/// Recovers without making the words safe first.
fn recover_only(live: &mut [u64], simulated: &mut Simulated) {
    let events = planned_recovery(live);
    carry_some(live, &events, simulated);
}

/// Recovers as opening does.
fn open(live: &mut [u64], simulated: &mut Simulated) {
    let mut marks = vec![0; live[WORD_CAPACITY] as usize];
    let pool = Pool::open(live, &mut marks, simulated.clone()).expect("a pool that recovers");
    *simulated = pool.into_medium();
    assert!(simulated.all_safe(), "opening leaves words that are not safe");
}

/// A process is killed within a split, the pool is recovered, and after some puts power is cut within the next split. What the
/// killed process had not flushed is in the caches then, neither lost nor safe.
fn kill_and_cut(recover: fn(&mut [u64], &mut Simulated), random: &mut Random) -> Found {
    let shape = Shape {
        height: 1,
        full: 1,
        places: Vec::new(),
        below: random.place(8),
        spare: 8,
        whole: true,
    };
    let tall = build(&shape, random);
    let first = put_of(&tall.pool, tall.key, 1);
    let mut live = first.start.clone();
    let mut simulated = Simulated::new(&live);
    let late = random.between(first.events.len() as u64 - 6, first.events.len() as u64) as usize;
    let done = if random.percent(50) {
        late
    } else {
        random.place(first.events.len() + 1)
    };
    carry_some(&mut live, &first.events[..done], &mut simulated);
    recover(&mut live, &mut simulated);
    let mut next = put_of(&live, 1, 2);
    while next.events.len() <= 7 {
        carry_some(&mut live, &next.events, &mut simulated);
        next = put_of(&live, random.next(), 2);
    }
    let done = random.place(next.events.len() + 1);
    carry_some(&mut live, &next.events[..done], &mut simulated);
    let found = simulated.cut(|_, values| random.place(values.len()));
    next.judge(&found)
}

#[test]
fn killed_and_then_cut() {
    each_seed("killed_and_then_cut", 1500, |random| {
        assert!(matches!(kill_and_cut(open, random), Found::Before | Found::After));
    });
}

/// A recovery that takes the words that a killed process left for safe is caught.
#[test]
fn words_taken_for_safe_are_caught() {
    let mut caught = 0;
    each_seed("words_taken_for_safe_are_caught", 1500, |random| {
        caught += u64::from(kill_and_cut(recover_only, random) == Found::Neither);
    });
    assert!(caught > 0);
}
