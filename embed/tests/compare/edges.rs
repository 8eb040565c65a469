//! Nothing outside a lent slice is touched, and no word of a pool that is only lent for reading: each slice ends at a page that
//! may not be read, and the pool's own pages may not be written while a call plans. A touch would end the test at once.

use crate::model;
use crate::model::events::write_list;
use crate::model::header::WORD_CAPACITY;
use crate::model::{Outcome, Planned};
use crate::support::both::{events_of, fresh_list};
use crate::support::every::some_key;
use crate::support::grow::grown_pool;
use crate::support::random::Random;
use crate::support::translate;
use crate::support::{damage, each_seed, rubbish};
use ombykape::{calls, Refusal};
use std::ffi::{c_int, c_void};

const PAGE: usize = 4096;
const PROT_NONE: c_int = 0;
const PROT_READ: c_int = 1;
const PROT_WRITE: c_int = 2;
const MAP_PRIVATE_ANONYMOUS: c_int = 0x22;

extern "C" {
    fn mmap(addr: *mut c_void, length: usize, prot: c_int, flags: c_int, fd: c_int, offset: i64) -> *mut c_void;
    fn munmap(addr: *mut c_void, length: usize) -> c_int;
    fn mprotect(addr: *mut c_void, length: usize, prot: c_int) -> c_int;
}

/// Elements that end where a page begins that may not be touched.
struct Edged<T> {
    pages: *mut c_void,
    bytes: usize,
    first: *mut T,
    len: usize,
}

impl<T: Copy> Edged<T> {
    fn holding(elements: &[T]) -> Edged<T> {
        let bytes = std::mem::size_of_val(elements).div_ceil(PAGE).max(1) * PAGE;
        // SAFETY: the pages are new, and the elements written lie within them.
        unsafe {
            let pages = mmap(
                std::ptr::null_mut(),
                bytes + PAGE,
                PROT_READ | PROT_WRITE,
                MAP_PRIVATE_ANONYMOUS,
                -1,
                0,
            );
            assert_ne!(pages.addr(), usize::MAX, "no pages");
            assert_eq!(mprotect(pages.byte_add(bytes), PAGE, PROT_NONE), 0);
            let first: *mut T = pages.byte_add(bytes - std::mem::size_of_val(elements)).cast();
            first.copy_from_nonoverlapping(elements.as_ptr(), elements.len());
            Edged {
                pages,
                bytes,
                first,
                len: elements.len(),
            }
        }
    }

    /// From here on the elements may be read only.
    fn only_read(self) -> Edged<T> {
        // SAFETY: the pages are this value's own, and no one holds a borrow of them for writing.
        assert_eq!(unsafe { mprotect(self.pages, self.bytes, PROT_READ) }, 0);
        self
    }

    fn slice(&self) -> &[T] {
        // SAFETY: the elements were written when the pages were made.
        unsafe { std::slice::from_raw_parts(self.first, self.len) }
    }

    fn slice_mut(&mut self) -> &mut [T] {
        // SAFETY: as above, and this is the only borrow.
        unsafe { std::slice::from_raw_parts_mut(self.first, self.len) }
    }
}

impl<T> Drop for Edged<T> {
    fn drop(&mut self) {
        // SAFETY: the pages are this value's own, and no borrow of them is left.
        unsafe { munmap(self.pages, self.bytes + PAGE) };
    }
}

/// The list after a planning call is the one that the model says.
fn compare<T>(planned: Planned<T>, list: &Edged<u64>) {
    let mut expected = fresh_list(list.len);
    write_list(&mut expected, events_of(&planned));
    assert!(list.slice() == expected, "the list");
}

/// Every call on slices that end at an edge.
fn at_the_edge(words: &[u64], list_len: usize, marks_len: usize, key: u64) {
    let pool = Edged::holding(words).only_read();
    let pool = pool.slice();
    let list = || Edged::holding(&fresh_list(list_len));
    let (mut put, mut delete, mut recover, mut format) = (list(), list(), list(), list());
    calls::put(pool, put.slice_mut(), key, 1).ok();
    compare(model::put::put(words, list_len, key, 1), &put);
    calls::delete(pool, delete.slice_mut(), key).ok();
    compare(model::put::delete(words, list_len, key), &delete);
    calls::recover(pool, recover.slice_mut()).ok();
    compare(model::recover::recover(words, list_len), &recover);
    calls::format(pool, format.slice_mut(), key % 10).ok();
    compare(model::header::format(words.len(), list_len, key % 10), &format);
    let fetched: Result<Outcome, u64> = calls::fetch(pool, key).map(translate::outcome).map_err(Refusal::number);
    assert_eq!(fetched, model::descend::fetch(words, key));
    let mut marks = Edged::holding(&vec![7; marks_len]);
    let mut expected = vec![7; marks_len];
    let checked = translate::checked(calls::check(pool, marks.slice_mut()));
    assert_eq!(checked, model::check::check(words, &mut expected));
    assert!(marks.slice() == expected, "the marks");
}

/// Carrying out and turns at an edge.
fn carried_at_the_edge(words: &[u64], random: &mut Random) {
    let mut pool = Edged::holding(words);
    let list = Edged::holding(&[
        1 << 56 | random.below(words.len() as u64 + 2),
        5,
        2 << 56 | random.below(40),
        0,
        3 << 56,
    ])
    .only_read();
    (0..4).for_each(|n| calls::carry_out(pool.slice_mut(), list.slice(), n).unwrap_or(()));
    let mut desks = Edged::holding(&vec![ombykape::Desk::FRESH; random.place(18)]);
    let mut list = Edged::holding(&fresh_list(random.pick(&[371, 372, 373])));
    for member in [0, 1, 2, 16, 17, u64::MAX] {
        calls::submit(desks.slice_mut(), member, ombykape::Request::Put(member, 1)).ok();
        calls::turn(pool.slice_mut(), list.slice_mut(), desks.slice_mut(), member).ok();
    }
}

fn some_pool(random: &mut Random) -> Vec<u64> {
    match random.below(4) {
        0 => rubbish::plausible(random),
        1 => rubbish::headed(random),
        2 => {
            let len = random.place(201);
            rubbish::words(len, random)
        }
        _ => {
            let mut pool = grown_pool(random.between(1, 60), 0, random).proved;
            if random.percent(70) {
                damage::damage(&mut pool, random);
            }
            pool
        }
    }
}

#[test]
fn slices_at_an_edge() {
    each_seed("slices_at_an_edge", 4000, |random| {
        let pool = some_pool(random);
        let key = some_key(&pool, random);
        let list_len = random.pick(&[0, 371, 372, 373]);
        let capacity = pool.get(WORD_CAPACITY).map_or(0, |capacity| *capacity % 64) as usize;
        at_the_edge(&pool, list_len, capacity + random.place(2), key);
        carried_at_the_edge(&pool, random);
    });
}
