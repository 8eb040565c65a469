//! Each call made by the proved code and by the model, and held together word for word: the answer, every word of the list,
//! the marks, and that planning left the pool as it was.

use super::translate;
use crate::model::check::Checked;
use crate::model::events::{write_list, Event};
use crate::model::recover::Recovery;
use crate::model::{self, Outcome, Planned};
use ombykape::{calls, Refusal};

/// A pool of at most so many words is copied for each call, to see that planning leaves it as it was.
const COPIED_MOST: usize = 4096;

/// A list whose words are known, all different and no events.
pub fn fresh_list(len: usize) -> Vec<u64> {
    (0..len as u64).map(|i| 0x7700_0000_0000_0000 + i).collect()
}

fn copy_if_small(pool: &[u64]) -> Option<Vec<u64>> {
    (pool.len() <= COPIED_MOST).then(|| pool.to_vec())
}

fn unchanged(copy: Option<Vec<u64>>, pool: &[u64]) {
    if let Some(copy) = copy {
        assert!(copy == pool, "planning changed the pool");
    }
}

/// Makes one planning call and compares what it answered and what it left in the list.
fn planned<T: Copy + PartialEq + std::fmt::Debug>(
    pool: &[u64],
    list_len: usize,
    expected: Planned<T>,
    call: impl FnOnce(&mut [u64]) -> Result<(T, u64), u64>,
) -> Planned<T> {
    let copy = copy_if_small(pool);
    let mut list = fresh_list(list_len);
    let answer = call(&mut list);
    let summed = expected
        .as_ref()
        .map(|(answer, events)| (*answer, events.len() as u64))
        .map_err(|number| *number);
    assert_eq!(answer, summed, "answer of the proved code, then of the model");
    let mut expected_list = fresh_list(list_len);
    write_list(&mut expected_list, events_of(&expected));
    for word in 0..list_len {
        assert_eq!(
            list[word], expected_list[word],
            "word {word} of the list, as the proved code and as the model have it"
        );
    }
    unchanged(copy, pool);
    expected
}

/// The events planned; none after a refusal.
pub fn events_of<T>(planned: &Planned<T>) -> &[Event] {
    match planned {
        Ok((_, events)) => events,
        Err(_) => &[],
    }
}

pub fn format(pool: &[u64], list_len: usize, capacity: u64) -> Planned<()> {
    let expected = model::header::format(pool.len(), list_len, capacity);
    planned(pool, list_len, expected, |list| {
        calls::format(pool, list, capacity)
            .map(|events| ((), events))
            .map_err(Refusal::number)
    })
}

pub fn recover(pool: &[u64], list_len: usize) -> Planned<Recovery> {
    let expected = model::recover::recover(pool, list_len);
    planned(pool, list_len, expected, |list| {
        translate::recovery(calls::recover(pool, list))
    })
}

pub fn put(pool: &[u64], list_len: usize, key: u64, value: u64) -> Planned<Outcome> {
    let expected = model::put::put(pool, list_len, key, value);
    planned(pool, list_len, expected, |list| {
        translate::answer(calls::put(pool, list, key, value))
    })
}

pub fn delete(pool: &[u64], list_len: usize, key: u64) -> Planned<Outcome> {
    let expected = model::put::delete(pool, list_len, key);
    planned(pool, list_len, expected, |list| {
        translate::answer(calls::delete(pool, list, key))
    })
}

pub fn fetch(pool: &[u64], key: u64) -> Result<Outcome, u64> {
    let copy = copy_if_small(pool);
    let expected = model::descend::fetch(pool, key);
    let answer = calls::fetch(pool, key).map(translate::outcome).map_err(Refusal::number);
    assert_eq!(answer, expected, "answer of the proved code, then of the model");
    unchanged(copy, pool);
    expected
}

/// Check, with marks that hold 0xee before it.
pub fn check(pool: &[u64], marks_len: usize) -> Result<Checked, u64> {
    let copy = copy_if_small(pool);
    let mut marks = vec![0xee; marks_len];
    let mut expected_marks = marks.clone();
    let expected = model::check::check(pool, &mut expected_marks);
    let answer = translate::checked(calls::check(pool, &mut marks));
    assert_eq!(answer, expected, "answer of the proved code, then of the model");
    assert!(marks == expected_marks, "marks differ");
    unchanged(copy, pool);
    let formed = model::formed::map_of(pool);
    if let Ok(checked) = expected {
        let sound = matches!(checked, Checked::Sound { .. });
        assert_eq!(sound, formed.is_some(), "sound exactly if well formed");
    }
    expected
}

/// Carries out one event on a copy of the pool and on the pool.
pub fn carry_out(pool: &mut [u64], list: &[u64], n: u64) -> Result<(), u64> {
    let mut expected_pool = pool.to_vec();
    let expected = model::events::carry_out(&mut expected_pool, list, n);
    let answer = calls::carry_out(pool, list, n).map_err(Refusal::number);
    assert_eq!(answer, expected, "answer of the proved code, then of the model");
    assert!(pool == expected_pool.as_slice(), "pool differs after carrying out");
    expected
}
