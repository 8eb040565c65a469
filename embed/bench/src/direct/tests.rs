//! The yardstick is what it is said to be: its words and its refusals are those of the proved pool, on damaged memory too.

use super::reach::{Reach, Safe, Unchecked};
use super::{Direct, Refused};
use crate::keys::Random;
use crate::wire::Plain;
use ombykape::{words_of, Outcome, Pool, Refusal};

const CAPACITY: u64 = 300;
const RECORDS: usize = 900;
const HEADER_WORDS: usize = 9;

/// What a request came to: the outcome, or the number of the refusal.
type Came = Result<Outcome, u64>;

fn loaded(random: &mut Random) -> (Vec<u64>, Vec<u64>) {
    let keys = random.row(RECORDS);
    let mut words = vec![0; words_of(CAPACITY)];
    let mut pool = Pool::format(&mut words, Plain, CAPACITY).expect("the words hold the pool");
    keys.iter().for_each(|&key| assert!(pool.put(key, key).is_ok()));
    (words, keys)
}

/// Changes a few words: in the header or in a node, to another word's value, a number near it, or a byte of it.
fn damage(random: &mut Random, words: &mut [u64]) {
    for _ in 0..1 + random.below(3) {
        let at = if random.below(4) == 0 {
            random.below(HEADER_WORDS)
        } else {
            random.below(words.len())
        };
        words[at] = match random.below(4) {
            0 => words[random.below(words.len())],
            1 => words[at].wrapping_add(random.next() % 3).wrapping_sub(1),
            2 => words[at] ^ ((random.next() & 0xf) << (8 * random.below(8))),
            _ => random.next() % 10,
        };
    }
}

fn proved(words: &mut [u64], request: u64, key: u64) -> Came {
    let mut list = [0; ombykape::LIST_WORDS];
    let number = |refusal: Refusal| refusal.number();
    if request == 0 {
        return ombykape::calls::fetch(words, key).map_err(number);
    }
    let planned = match request {
        1 => ombykape::calls::put(words, &mut list, key, 7),
        _ => ombykape::calls::delete(words, &mut list, key),
    };
    let answer = planned.map_err(number)?;
    ombykape::calls::carry_all(words, &list, answer.events);
    Ok(answer.outcome)
}

fn direct<R: Reach>(words: &mut [u64], request: u64, key: u64) -> Came {
    let mut tree = Direct::<R, Plain, true>::new(words, Plain);
    let number = |refused: Refused| refused as u64;
    match request {
        0 => tree
            .fetch(key)
            .map(|found| found.map_or(Outcome::Absent, Outcome::Found))
            .map_err(number),
        1 => tree
            .put(key, 7)
            .map(|new| if new { Outcome::New } else { Outcome::Replaced })
            .map_err(number),
        _ => tree
            .delete(key)
            .map(|there| if there { Outcome::Removed } else { Outcome::Absent })
            .map_err(number),
    }
}

/// The same words thrice, for the proved pool and the two that it is held against.
fn thrice(words: &[u64]) -> [Vec<u64>; 3] {
    [words.to_vec(), words.to_vec(), words.to_vec()]
}

/// Asks one request of all three; how it came out, if they agree on that and on every word.
fn agreed([words, safe, unchecked]: &mut [Vec<u64>; 3], request: u64, key: u64) -> Came {
    let came = proved(words, request, key);
    assert_eq!(direct::<Safe>(safe, request, key), came);
    assert_eq!(direct::<Unchecked>(unchecked, request, key), came);
    assert!(words == safe && words == unchecked, "{came:?} left other words");
    came
}

/// A key of the load, or another.
fn some_key(random: &mut Random, keys: &[u64]) -> u64 {
    let other = random.next();
    if random.below(2) == 0 {
        keys[random.below(keys.len())]
    } else {
        other
    }
}

#[test]
fn sound_pools_are_changed_alike_until_they_are_full() {
    let mut random = Random::new(1);
    let (words, keys) = loaded(&mut random);
    let mut pools = thrice(&words);
    let mut full = false;
    for _ in 0..20_000 {
        let key = some_key(&mut random, &keys);
        let came = agreed(&mut pools, random.next() % 3, key);
        assert!(came.is_ok() || came == Err(Refused::NoRoom as u64));
        full |= came.is_err();
    }
    assert!(full);
}

#[test]
fn damaged_pools_are_refused_alike() {
    let mut random = Random::new(2);
    let (sound, keys) = loaded(&mut random);
    let mut met = [0; 6];
    for _ in 0..4_000 {
        let mut words = sound.clone();
        damage(&mut random, &mut words);
        let mut pools = thrice(&words);
        for _ in 0..12 {
            let key = some_key(&mut random, &keys);
            if let Err(number) = agreed(&mut pools, random.next() % 3, key) {
                met[number as usize] += 1;
            }
        }
    }
    let wanted = [Refused::NoPool, Refused::Unfinished, Refused::Damaged];
    assert!(
        wanted.iter().all(|&refused| met[refused as usize] > 0),
        "some refusal was never met: {met:?}"
    );
}
