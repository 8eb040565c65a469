//! The stores in C: those whose libraries were there when the benchmark was built. Their files lie in a folder in memory.

use crate::peer::{Entrant, Peer};
use std::ffi::{c_char, c_int, c_void, CStr, CString};
use std::path::PathBuf;
use std::{fs, io, process};

/// The calls of one store, as `c/peer.h` has them.
#[repr(C)]
pub struct Calls {
    version: unsafe extern "C" fn() -> *const c_char,
    open: unsafe extern "C" fn(*const c_char, c_int) -> *mut c_void,
    begin: unsafe extern "C" fn(*mut c_void, c_int),
    get: unsafe extern "C" fn(*mut c_void, u64, *mut u64) -> c_int,
    put: unsafe extern "C" fn(*mut c_void, u64, u64) -> c_int,
    del: unsafe extern "C" fn(*mut c_void, u64) -> c_int,
    end: unsafe extern "C" fn(*mut c_void),
    close: unsafe extern "C" fn(*mut c_void),
}

macro_rules! found {
    ($built:ident, $calls:ident) => {{
        #[cfg($built)]
        {
            extern "C" {
                static $calls: Calls;
            }
            // SAFETY: the archive that the build script linked defines it, never to be changed.
            Some(unsafe { &$calls })
        }
        #[cfg(not($built))]
        None::<&'static Calls>
    }};
}

/// A library, its calls if it was there, and its settings: the number for `open`, the name, and whether a put replaces.
struct Library {
    name: &'static str,
    calls: Option<&'static Calls>,
    settings: &'static [(c_int, &'static str, bool)],
}

fn libraries() -> [Library; 5] {
    [
        Library {
            name: "LMDB",
            calls: found!(lmdb, peer_lmdb),
            settings: &[
                (0, "LMDB, write map, no sync", true),
                (1, "LMDB, default sync", true),
                (2, "LMDB in batches, no sync", true),
            ],
        },
        Library {
            name: "Berkeley DB",
            calls: found!(berkeley, peer_berkeley),
            settings: &[
                (0, "Berkeley DB, no transactions", true),
                (1, "Berkeley DB, log not synced", true),
            ],
        },
        Library {
            name: "SQLite",
            calls: found!(sqlite, peer_sqlite),
            settings: &[
                (0, "SQLite, WAL, synchronous off", true),
                (1, "SQLite in batches, synchronous off", true),
            ],
        },
        Library {
            name: "libpmemobj",
            calls: found!(pmemobj, peer_pmemobj),
            settings: &[(0, "PMDK, transactions on 01's tree", true)],
        },
        Library {
            name: "PMDK's btree_map",
            calls: found!(btree_map, peer_btree_map),
            settings: &[(0, "PMDK, its own btree_map", false)],
        },
    ]
}

/// The libraries that were not there.
pub fn left_out() -> Vec<String> {
    let absent = |library: &&Library| library.calls.is_none();
    libraries().iter().filter(absent).map(|library| library.name.into()).collect()
}

/// What each library says that it is.
pub fn versions() -> Vec<String> {
    // SAFETY: the calls answer a text that stays.
    let told = |calls: &Calls| unsafe { CStr::from_ptr((calls.version)()) }.to_string_lossy().into_owned();
    let mut versions: Vec<String> = libraries().iter().filter_map(|library| library.calls.map(told)).collect();
    versions.dedup();
    versions
}

/// The stores that are there, fresh.
pub fn entrants(folder: &Folder) -> Vec<Entrant> {
    let mut entrants = Vec::new();
    for library in libraries() {
        for &(setting, name, replaces) in library.settings.iter().filter(|_| library.calls.is_some()) {
            let calls = library.calls.expect("filtered");
            entrants.push(Entrant {
                name,
                peer: Box::new(Foreign::open(calls, folder, setting, replaces)),
            });
        }
    }
    entrants
}

/// A folder in memory for the files of a race, removed at its end.
pub struct Folder {
    path: PathBuf,
}

impl Folder {
    pub fn new(name: &str) -> io::Result<Folder> {
        let path = PathBuf::from(format!("/dev/shm/ombykape-bench-{}-{name}", process::id()));
        fs::create_dir_all(&path)?;
        Ok(Folder { path })
    }

    pub fn file(&self, name: &str) -> PathBuf {
        self.path.join(name)
    }
}

impl Drop for Folder {
    fn drop(&mut self) {
        let _ = fs::remove_dir_all(&self.path);
    }
}

struct Foreign {
    calls: &'static Calls,
    store: *mut c_void,
    replaces: bool,
}

impl Foreign {
    fn open(calls: &'static Calls, folder: &Folder, setting: c_int, replaces: bool) -> Foreign {
        let path = CString::new(folder.path.as_os_str().as_encoded_bytes()).expect("a path has no zero byte");
        // SAFETY: the path is a text that lives through the call.
        let store = unsafe { (calls.open)(path.as_ptr(), setting) };
        assert!(!store.is_null(), "a store cannot be opened in {}", folder.path.display());
        Foreign { calls, store, replaces }
    }
}

// SAFETY, of every call: the store is the one that `open` answered, and is closed once.
impl Peer for Foreign {
    #[inline(always)]
    fn get(&mut self, key: u64) -> Option<u64> {
        let mut value = 0;
        match unsafe { (self.calls.get)(self.store, key, &mut value) } {
            1 => Some(value),
            0 => None,
            failed => panic!("a fetch failed: {failed}"),
        }
    }

    #[inline(always)]
    fn put(&mut self, key: u64, value: u64) {
        assert_eq!(unsafe { (self.calls.put)(self.store, key, value) }, 1, "a put failed");
    }

    #[inline(always)]
    fn delete(&mut self, key: u64) -> bool {
        match unsafe { (self.calls.del)(self.store, key) } {
            answer @ 0..=1 => answer == 1,
            failed => panic!("a delete failed: {failed}"),
        }
    }

    fn begin(&mut self, writes: bool) {
        unsafe { (self.calls.begin)(self.store, c_int::from(writes)) }
    }

    fn end(&mut self) {
        unsafe { (self.calls.end)(self.store) }
    }

    fn replaces(&self) -> bool {
        self.replaces
    }
}

impl Drop for Foreign {
    fn drop(&mut self) {
        unsafe { (self.calls.close)(self.store) }
    }
}
