//! The peers, and the line-ups of the races.

mod btree;
mod foreign;
mod proved;
mod straight;

pub use foreign::{left_out, versions, Folder};
pub use proved::Proved;
pub use straight::Straight;

use crate::direct::reach::{Safe, Unchecked};
use crate::memory::Memory;
use crate::peer::{Entrant, Peer};
use crate::wire::{Hardware, Plain};
use btree::Tree;
use ombykape::medium::{Real, RealMfence};

pub const PROVED: &str = "proved pool";
pub const UNCHECKED: &str = "direct, unchecked indexing";
pub const SAFE: &str = "direct, safe indexing";
pub const BARE: &str = "direct, no checks";
pub const BTREE: &str = "std BTreeMap";

fn entrant(name: &'static str, peer: impl Peer + 'static) -> Entrant {
    Entrant {
        name,
        peer: Box::new(peer),
    }
}

/// Fresh words for a pool of the largest capacity.
pub fn words() -> &'static mut [u64] {
    Memory::new(ombykape::words_of(ombykape::CAPACITY_MOST)).lend()
}

/// The pool and its yardsticks, with real flushes and `sfence` or `mfence`.
pub fn near(mfence: bool) -> Vec<Entrant> {
    if mfence {
        return vec![
            entrant(PROVED, Proved::new(words(), RealMfence)),
            entrant(
                UNCHECKED,
                Straight::<Unchecked, _, true>::new(words(), Hardware::<true>::new()),
            ),
            entrant(SAFE, Straight::<Safe, _, true>::new(words(), Hardware::<true>::new())),
            entrant(BARE, Straight::<Unchecked, _, false>::new(words(), Hardware::<true>::new())),
        ];
    }
    vec![
        entrant(PROVED, Proved::new(words(), Real)),
        entrant(
            UNCHECKED,
            Straight::<Unchecked, _, true>::new(words(), Hardware::<false>::new()),
        ),
        entrant(SAFE, Straight::<Safe, _, true>::new(words(), Hardware::<false>::new())),
        entrant(BARE, Straight::<Unchecked, _, false>::new(words(), Hardware::<false>::new())),
    ]
}

/// All of them: the pool, its yardsticks, the map of the standard library and the stores that are installed.
pub fn all(folder: &Folder) -> Vec<Entrant> {
    let mut entrants = near(false);
    entrants.push(entrant(BTREE, Tree::default()));
    entrants.extend(foreign::entrants(folder));
    entrants
}

/// The pool or a yardstick by its name, over words that hold a pool, without flushes: for counting instructions.
pub fn plain(name: &str, words: &'static mut [u64]) -> Box<dyn Peer> {
    match name {
        PROVED => Box::new(Proved::over(words, Plain)),
        UNCHECKED => Box::new(Straight::<Unchecked, _, true>::over(words, Plain)),
        SAFE => Box::new(Straight::<Safe, _, true>::over(words, Plain)),
        BARE => Box::new(Straight::<Unchecked, _, false>::over(words, Plain)),
        _ => panic!("{name} is not one of those whose instructions are counted"),
    }
}
