//! Splits of one to seven levels and the refusal of eight, on trees laid by hand, and the table of the most events.

use crate::model::check::Checked;
use crate::model::events::{carry, LIST_WORDS};
use crate::model::formed::{map_of, with};
use crate::model::header::{HEIGHT_MOST, WORD_CAPACITY};
use crate::support::damage::damage;
use crate::support::random::Random;
use crate::support::tall::{build, Shape};
use crate::support::{both, each_seed};

/// 01's table: most events for 1 to 7 split levels, with the root kept and with a new one.
const MOST_ROOT_KEPT: [usize; 7] = [55, 76, 98, 120, 142, 163, 185];
const MOST_NEW_ROOT: [usize; 7] = [55, 77, 99, 121, 142, 164, 186];

/// Entries that stay in a node that splits, so that a new record below the fifth stays too.
const STAYING: usize = 4;

/// A shape whose put splits so many levels; places are any that the nodes have.
fn shape(levels: usize, new_root: bool, whole: bool, random: &mut Random) -> Shape {
    let height = if new_root { levels } else { levels + 1 };
    let mut places: Vec<usize> = (1..height).map(|_| random.place(8)).collect();
    if !new_root && !places.is_empty() {
        places[0] = random.place(if whole { 2 } else { 7 });
    }
    Shape {
        height,
        full: levels,
        places,
        below: random.place(8),
        spare: levels as u64 + 1 + random.below(3),
        whole,
    }
}

/// The split levels at which the new record stays below.
fn staying(shape: &Shape) -> usize {
    let mut stays = if shape.below < STAYING { 1 } else { 0 };
    for up in 1..shape.full {
        let place = shape.places[shape.height - 1 - up];
        stays += if place < STAYING { 1 } else { 0 };
    }
    stays
}

/// Events of a split by its parts (a) to (e): l levels, s staying records, r new roots.
fn events_by_parts(l: usize, s: usize, r: usize) -> usize {
    let pairs = l + 2 * s + 5 - r;
    let nodes = 12 + 9 * (l - 1) + 5 * r;
    let log = 2 * pairs + (1 + pairs / 4) + 1;
    nodes + log + 3 + (2 * pairs + 1) + 3
}

/// Puts into the pool of a shape and compares; answers the count of events.
fn put_into(shape: &Shape, random: &mut Random) -> usize {
    let tall = build(shape, random);
    let (_, events) = both::put(&tall.pool, LIST_WORDS, tall.key, 77).expect("a split");
    if shape.whole {
        let before = map_of(&tall.pool).expect("a well-formed pool");
        let mut after = tall.pool.clone();
        carry(&mut after, &events);
        assert_eq!(map_of(&after), Some(with(&before, tall.key, 77)));
    }
    events.len()
}

fn compare_shape(levels: usize, new_root: bool, whole: bool, random: &mut Random) {
    let shape = shape(levels, new_root, whole, random);
    let count = put_into(&shape, random);
    assert_eq!(
        count,
        events_by_parts(levels, staying(&shape), usize::from(new_root)),
        "{shape:?}"
    );
    let most = if new_root { MOST_NEW_ROOT } else { MOST_ROOT_KEPT };
    assert!(count <= most[levels - 1]);
}

#[test]
fn paths_of_every_height() {
    each_seed("paths_of_every_height", 3000, |random| {
        for levels in 1..=7 {
            compare_shape(levels, false, false, random);
            compare_shape(levels, true, false, random);
        }
    });
}

#[test]
fn whole_trees_of_little_height() {
    each_seed("whole_trees_of_little_height", 100, |random| {
        for levels in 1..=4 {
            compare_shape(levels, false, true, random);
            compare_shape(levels, true, true, random);
        }
    });
}

#[test]
fn whole_trees_of_great_height() {
    each_seed("whole_trees_of_great_height", 1, |random| {
        for levels in 5..=7 {
            compare_shape(levels, false, true, random);
            compare_shape(levels, true, true, random);
        }
    });
}

/// The table is met exactly where every new record stays below.
#[test]
fn the_most_events() {
    let mut random = Random::from_seed(0);
    for levels in 1..=7 {
        for (new_root, most) in [(false, MOST_ROOT_KEPT), (true, MOST_NEW_ROOT)] {
            let mut shape = shape(levels, new_root, levels < 6, &mut random);
            shape.places.iter_mut().for_each(|place| *place %= STAYING);
            if !new_root {
                shape.places[0] = 1;
            }
            shape.below = 3;
            assert_eq!(put_into(&shape, &mut random), most[levels - 1], "{shape:?}");
        }
    }
}

/// A split needs a node for each level, and one more for a new root; with eight full levels room is looked at first.
#[test]
fn refusals_by_room() {
    let mut random = Random::from_seed(1);
    for levels in 1..=8 {
        for spare in 0..=levels as u64 + 2 {
            let mut shape = shape(levels, true, false, &mut random);
            shape.spare = spare;
            let tall = build(&shape, &mut random);
            let answer = both::put(&tall.pool, LIST_WORDS, tall.key, 1);
            let expected = match () {
                _ if spare < levels as u64 + 1 => Some(5),
                _ if levels as u64 == HEIGHT_MOST => Some(4),
                _ => None,
            };
            assert_eq!(answer.err(), expected, "{levels} levels, {spare} nodes to spare");
        }
    }
}

#[test]
fn room_with_the_root_kept() {
    let mut random = Random::from_seed(2);
    for levels in 1..=7 {
        for spare in 0..=levels as u64 + 1 {
            let mut shape = shape(levels, false, false, &mut random);
            shape.spare = spare;
            let tall = build(&shape, &mut random);
            let answer = both::put(&tall.pool, LIST_WORDS, tall.key, 1);
            assert_eq!(answer.err(), (spare < levels as u64).then_some(5));
        }
    }
}

/// Trees that are whole are sound, and every damage to one of their words is seen by both alike.
#[test]
fn checks_of_whole_trees() {
    each_seed("checks_of_whole_trees", 200, |random| {
        let levels = random.between(1, 4) as usize;
        let new_root = random.percent(50);
        let shape = shape(levels, new_root, true, random);
        let tall = build(&shape, random);
        let capacity = tall.pool[WORD_CAPACITY] as usize;
        assert!(matches!(both::check(&tall.pool, capacity), Ok(Checked::Sound { .. })));
        for _ in 0..30 {
            let mut pool = tall.pool.clone();
            damage(&mut pool, random);
            both::check(&pool, capacity).ok();
            both::put(&pool, LIST_WORDS, tall.key, 1).ok();
        }
    });
}
