//! A file's words, mapped into memory.

use std::ffi::{c_int, c_void};
use std::fs::File;
use std::os::fd::AsRawFd;
use std::{io, ptr, slice};

/// How far a flush of a mapped word reaches.
#[derive(Clone, Copy, Debug, PartialEq, Eq)]
pub enum Reach {
    /// The persistent memory itself (a map with `MAP_SYNC`, on a DAX file system): after flush and fence a power cut loses
    /// nothing.
    Module,
    /// The system's page cache: a killed process loses nothing, but a power cut may lose any of the words stored after the last
    /// sync.
    PageCache,
}

const PROT_READ: c_int = 1;
const PROT_WRITE: c_int = 2;
const MAP_SHARED: c_int = 1;
const MAP_SHARED_VALIDATE: c_int = 3;
const MAP_SYNC: c_int = 0x8_0000;
const MS_SYNC: c_int = 4;

extern "C" {
    fn mmap(addr: *mut c_void, length: usize, prot: c_int, flags: c_int, fd: c_int, offset: i64) -> *mut c_void;
    fn munmap(addr: *mut c_void, length: usize) -> c_int;
    fn msync(addr: *mut c_void, length: usize, flags: c_int) -> c_int;
}

/// The words of a whole file, mapped shared and for writing. The file is kept, and so is its lock.
pub(crate) struct Map {
    words: *mut u64,
    count: usize,
    reach: Reach,
    _file: File,
}

// SAFETY: a `Map` owns its mapping as a box owns its words, and no thread has a claim to either.
unsafe impl Send for Map {}
// SAFETY: a shared `Map` only lends shared words.
unsafe impl Sync for Map {}

impl Map {
    /// Maps the first `count` words of a file that is open for reading and writing, is that long, and is locked.
    ///
    /// A map whose flushes reach the persistent memory is tried first, and then one of the page cache.
    pub(crate) fn new(file: File, count: usize) -> io::Result<Map> {
        let module = map_words(&file, count, MAP_SHARED_VALIDATE | MAP_SYNC).map(|words| (words, Reach::Module));
        let page_cache = |_| map_words(&file, count, MAP_SHARED).map(|words| (words, Reach::PageCache));
        let (words, reach) = module.or_else(page_cache)?;
        Ok(Map {
            words,
            count,
            reach,
            _file: file,
        })
    }

    pub(crate) fn reach(&self) -> Reach {
        self.reach
    }

    #[inline]
    pub(crate) fn words(&self) -> &[u64] {
        // SAFETY: `map_words` answered a readable mapping of `count` words, aligned to a page, which `drop` alone ends. No one
        // writes to it while `self` is borrowed shared: this process does so through `words_mut` alone, and another one that
        // opens the file by this crate is kept out by the lock. Whoever writes to the file or shortens it without taking the
        // lock breaks what `PoolFile` asks.
        unsafe { slice::from_raw_parts(self.words, self.count) }
    }

    #[inline]
    pub(crate) fn words_mut(&mut self) -> &mut [u64] {
        // SAFETY: as for `words`; the mapping is writable, and `self` is borrowed exclusively.
        unsafe { slice::from_raw_parts_mut(self.words, self.count) }
    }

    /// Has the system write to the device what was stored; needed only where flushes reach no further than the page cache.
    pub(crate) fn sync(&self) -> io::Result<()> {
        if self.reach == Reach::Module {
            return Ok(());
        }
        // SAFETY: the range is that of the mapping, and the call changes no word of it.
        match unsafe { msync(self.words.cast(), self.count * size_of::<u64>(), MS_SYNC) } {
            0 => Ok(()),
            _ => Err(io::Error::last_os_error()),
        }
    }
}

impl Drop for Map {
    fn drop(&mut self) {
        let _ = self.sync();
        // SAFETY: the range is that of the mapping, and no borrow of it outlives `self`.
        unsafe { munmap(self.words.cast(), self.count * size_of::<u64>()) };
    }
}

fn map_words(file: &File, count: usize, flags: c_int) -> io::Result<*mut u64> {
    let bytes = count * size_of::<u64>();
    // SAFETY: the system chooses an address that is not in use, so no memory of this process is replaced.
    let at = unsafe { mmap(ptr::null_mut(), bytes, PROT_READ | PROT_WRITE, flags, file.as_raw_fd(), 0) };
    if at.addr() == usize::MAX {
        Err(io::Error::last_os_error())
    } else {
        Ok(at.cast())
    }
}
