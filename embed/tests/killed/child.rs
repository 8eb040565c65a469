//! The child process: it works on a pool file until it is killed.

use crate::support::pace;
use crate::support::random::Random;
use ombykape::medium::{Medium, Real};
use ombykape::{Error, Pool, PoolFile, CAPACITY_MOST};
use std::ffi::{c_int, c_ulong, c_void};
use std::fs::File;
use std::io::ErrorKind;
use std::os::fd::AsRawFd;
use std::path::Path;
use std::sync::atomic::{AtomicU64, Ordering};
use std::thread::sleep;
use std::time::{Duration, Instant};

/// What the parent tells its child: the pool file, the diary, the seed of the requests, and the way to work.
pub const POOL: &str = "OMBYKAPE_CHILD_POOL";
pub const DIARY: &str = "OMBYKAPE_CHILD_DIARY";
pub const SEED: &str = "OMBYKAPE_CHILD_SEED";
pub const WAY: &str = "OMBYKAPE_CHILD_WAY";

/// The ways to work; any other is the number of events behind which the child ends itself.
pub const BY_POOL_FILE: &str = "file";
pub const SLOWLY: &str = "slowly";

/// Far more requests than a child lives to see; one that ends by itself fails its parent's test.
const REQUESTS: u64 = 100_000_000;

/// Request i of a seed, a key with the value to put or none to delete: rising, falling or scattered keys, so that leaves
/// split often, and some deletes.
pub fn request(seed: u64, i: u64) -> (u64, Option<u64>) {
    let mut random = Random::from_seed(seed.wrapping_mul(1 << 20).wrapping_add(i));
    let i = if random.percent(5) { random.below(i + 1) } else { i };
    let key = match seed % 4 {
        0 | 1 => seed << 32 | i,
        2 => u64::MAX - (seed << 32 | i),
        _ => random.below(100_000),
    };
    (key, random.percent(95).then(|| random.next()))
}

/// The real medium, with a pause behind each event, or the end of the process behind one. Lists begin with a store; flushes
/// and fences before the first one make the words safe on opening, and are neither counted nor slowed.
struct Watchful {
    real: Real,
    stored: bool,
    left: u64,
    pause: Duration,
}

impl Watchful {
    fn event(&mut self) {
        if !self.stored {
            return;
        }
        self.left -= 1;
        if self.left == 0 {
            // SAFETY: the call ends this process.
            unsafe { raise(SIGKILL) };
        }
        let begun = Instant::now();
        while begun.elapsed() < self.pause {
            std::hint::spin_loop();
        }
    }
}

impl Medium for Watchful {
    fn store(&mut self, words: &mut [u64], word: usize, value: u64) {
        self.real.store(words, word, value);
        self.stored = true;
        self.event();
    }

    fn flush(&mut self, words: &[u64], line: usize) {
        self.real.flush(words, line);
        self.event();
    }

    fn fence(&mut self) {
        self.real.fence();
        self.event();
    }
}

extern "C" {
    fn prctl(option: c_int, signal: c_ulong) -> c_int;
    fn raise(signal: c_int) -> c_int;
    fn mmap(addr: *mut c_void, length: usize, prot: c_int, flags: c_int, fd: c_int, offset: i64) -> *mut c_void;
}

const SIGKILL: c_int = 9;
const PR_SET_PDEATHSIG: c_int = 1;
const PROT_READ_WRITE: c_int = 3;
const MAP_SHARED: c_int = 1;

/// A file's words, mapped until the process ends.
fn mapped(path: &str) -> &'static mut [u64] {
    let file = File::options().read(true).write(true).open(path).expect("a file");
    let bytes = file.metadata().expect("its length").len() as usize;
    // SAFETY: the system chooses the place, the map is never ended, and this process has no other of the file.
    unsafe {
        let at = mmap(std::ptr::null_mut(), bytes, PROT_READ_WRITE, MAP_SHARED, file.as_raw_fd(), 0);
        assert_ne!(at.addr(), usize::MAX, "the file cannot be mapped");
        std::slice::from_raw_parts_mut(at.cast(), bytes / 8)
    }
}

/// A mapped word that counts the requests begun and those ended, in one number.
fn diary() -> &'static AtomicU64 {
    // SAFETY: the map is never ended, and this process uses its first word in this way only.
    unsafe { AtomicU64::from_ptr(mapped(&told(DIARY)).as_mut_ptr()) }
}

fn told(name: &str) -> String {
    std::env::var(name).expect("a parent that tells")
}

/// Works for a parent, if there is one.
pub fn run() {
    if std::env::var(POOL).is_err() {
        return;
    }
    // SAFETY: the call has this process killed when its parent's test ends, whatever the reason.
    unsafe { prctl(PR_SET_PDEATHSIG, SIGKILL as c_ulong) };
    match told(WAY).as_str() {
        BY_POOL_FILE => work_by_pool_file(),
        SLOWLY => work(u64::MAX, pace() * Duration::from_micros(10)),
        stop => work(stop.parse().expect("a number of events"), Duration::ZERO),
    }
}

/// Makes request after request, noted in the diary before and after.
fn serve(mut change: impl FnMut(u64, Option<u64>)) {
    let (seed, diary) = (told(SEED).parse().expect("a seed"), diary());
    for i in 0..REQUESTS {
        let (key, value) = request(seed, i);
        diary.fetch_add(1, Ordering::SeqCst);
        change(key, value);
        diary.fetch_add(1, Ordering::SeqCst);
    }
}

/// Opens a pool file once nobody holds it: a process that another test is just starting keeps every file of this one open, and
/// with them their locks, until its own program begins.
pub fn open_when_free(path: &Path) -> PoolFile {
    let began = Instant::now();
    loop {
        match PoolFile::open(path) {
            Err(Error::Io(cause)) if cause.kind() == ErrorKind::WouldBlock && began.elapsed() < Duration::from_secs(20) => {
                sleep(Duration::from_millis(1));
            }
            opened => return opened.expect("a pool that recovers and is sound"),
        }
    }
}

/// Works as any program does that opens a pool file.
fn work_by_pool_file() {
    let mut pool = open_when_free(told(POOL).as_ref());
    serve(|key, value| match value {
        Some(value) => drop(pool.put(key, value)),
        None => drop(pool.delete(key)),
    });
}

/// Works by a medium that waits behind each event or ends behind one.
fn work(left: u64, pause: Duration) {
    let (real, stored) = (Real, false);
    let mut marks = vec![0; CAPACITY_MOST as usize];
    let medium = Watchful {
        real,
        stored,
        left,
        pause,
    };
    let mut pool = Pool::open(mapped(&told(POOL)), &mut marks, medium).expect("a pool");
    serve(|key, value| match value {
        Some(value) => drop(pool.put(key, value)),
        None => drop(pool.delete(key)),
    });
}
