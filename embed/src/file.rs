//! A pool in a file that is mapped into memory.

use crate::carrier::Carrier;
use crate::map::Map;
use crate::medium::Real;
use crate::pool::value_found;
use crate::{calls, words_of, Answer, Checked, Desks, Error, Pool, Reach, Recovery, Refusal, CAPACITY_MOST};
use std::fs::{self, File, OpenOptions, TryLockError};
use std::io::{self, Read, Write};
use std::path::Path;

const WORD_BYTES: usize = size_of::<u64>();

/// A pool in a file, mapped into memory and changed by the [`Real`] medium.
///
/// On a DAX file system over persistent memory a flush reaches the module, and the pool keeps its promise through a power cut.
/// On any other file system a flush reaches the page cache only ([`PoolFile::reach`] says which it is): if the process is
/// killed, nothing that was carried out is lost and the next open recovers, but a power cut may lose any of the words stored
/// since the last [`PoolFile::sync`], in no order, so the promise does not hold there. Closing syncs.
///
/// While the file is open it is locked exclusively, so a second open is refused, in this process or another. The lock binds
/// only those who ask for it. Whoever opens a pool file answers for it that no one else writes to it, maps it for writing or
/// shortens it meanwhile: this crate and the proved code read the words as memory that no one else changes.
pub struct PoolFile {
    map: Map,
    carrier: Carrier<Real>,
    recovery: Recovery,
}

impl PoolFile {
    /// Makes a new file with an empty pool of `capacity` nodes. A file that is there already is left alone.
    pub fn create(path: impl AsRef<Path>, capacity: u64) -> Result<PoolFile, Error> {
        let path = path.as_ref();
        if !(1..=CAPACITY_MOST).contains(&capacity) {
            return Err(Refusal::BadCapacity.into());
        }
        let file = OpenOptions::new().read(true).write(true).create_new(true).open(path);
        let file = file.map_err(|e| told(path, "cannot create", e))?;
        let made = PoolFile::fill(path, file, capacity);
        if made.is_err() {
            let _ = fs::remove_file(path);
        }
        made
    }

    /// Gives a new file its words, formats it, and has its length, its words and its name written to the device.
    ///
    /// The words are written out and not left as a hole, so that a full device shows here and not as a fault at a later store.
    fn fill(path: &Path, mut file: File, capacity: u64) -> Result<PoolFile, Error> {
        lock(path, file.try_lock())?;
        let count = words_of(capacity);
        let written = file.write_all(&vec![0; count * WORD_BYTES]).and_then(|()| file.sync_all());
        written.map_err(|e| told(path, "cannot write", e))?;
        let mut map = Map::new(file, count).map_err(|e| told(path, "cannot map", e))?;
        let mut carrier = Carrier::new(Real);
        carrier.format(map.words_mut(), capacity)?;
        let synced = map.sync().and_then(|()| sync_folder(path));
        synced.map_err(|e| told(path, "cannot sync", e))?;
        Ok(PoolFile {
            map,
            carrier,
            recovery: Recovery::Clean,
        })
    }

    /// Opens a pool file: maps it, and then as [`Pool::open`] makes its words safe, finishes a committed change that was left,
    /// and checks the whole pool.
    pub fn open(path: impl AsRef<Path>) -> Result<PoolFile, Error> {
        let path = path.as_ref();
        let file = OpenOptions::new().read(true).write(true).open(path);
        let file = file.map_err(|e| told(path, "cannot open", e))?;
        lock(path, file.try_lock())?;
        let count = words_in(path, &file)?;
        let mut map = Map::new(file, count).map_err(|e| told(path, "cannot map", e))?;
        let mut carrier = Carrier::new(Real);
        let recovery = carrier.open(map.words_mut(), &mut marks())?;
        Ok(PoolFile { map, carrier, recovery })
    }

    /// Checks the pool in a file that is only read: nothing is recovered, and a file that is open elsewhere is refused.
    pub fn inspect(path: impl AsRef<Path>) -> Result<Checked, Error> {
        let path = path.as_ref();
        let mut file = File::open(path).map_err(|e| told(path, "cannot open", e))?;
        lock(path, file.try_lock_shared())?;
        let count = words_in(path, &file)?;
        let mut bytes = vec![0; count * WORD_BYTES];
        file.read_exact(&mut bytes).map_err(|e| told(path, "cannot read", e))?;
        let words: Vec<u64> = bytes.chunks_exact(WORD_BYTES).map(word_of).collect();
        Ok(calls::check(&words, &mut marks())?)
    }

    /// The value under a key.
    #[inline]
    pub fn get(&self, key: u64) -> Result<Option<u64>, Refusal> {
        calls::fetch(self.map.words(), key).map(value_found)
    }

    /// Puts a value under a key, and answers once every event of it has been carried out.
    #[inline]
    pub fn put(&mut self, key: u64, value: u64) -> Result<Answer, Refusal> {
        self.carrier.put(self.map.words_mut(), key, value)
    }

    /// Deletes a key, and answers once every event of it has been carried out.
    #[inline]
    pub fn delete(&mut self, key: u64) -> Result<Answer, Refusal> {
        self.carrier.delete(self.map.words_mut(), key)
    }

    /// Checks the whole pool.
    pub fn check(&self) -> Result<Checked, Refusal> {
        calls::check(self.map.words(), &mut marks())
    }

    /// Desks for 1 to 16 members over this pool; any other number is refusal 9.
    pub fn desks(&mut self, members: usize) -> Result<Desks<'_, Real>, Refusal> {
        Desks::new(Pool::over(self.map.words_mut(), Real), members)
    }

    /// What opening the file found unfinished.
    pub fn recovery(&self) -> Recovery {
        self.recovery
    }

    /// How far the flushes reach.
    pub fn reach(&self) -> Reach {
        self.map.reach()
    }

    /// The words of the file, which may be more than the pool has.
    pub fn words(&self) -> &[u64] {
        self.map.words()
    }

    /// Has the system write to the device what was stored, where flushes reach no further than the page cache.
    pub fn sync(&self) -> Result<(), Error> {
        let synced = self.map.sync();
        Ok(synced.map_err(|e| io::Error::new(e.kind(), format!("the pool file cannot be synced: {e}")))?)
    }

    /// Syncs and closes. Dropping does the same, and passes over a sync that fails.
    pub fn close(self) -> Result<(), Error> {
        self.sync()
    }
}

/// Room for the marks of any pool.
fn marks() -> Vec<u8> {
    vec![0; CAPACITY_MOST as usize]
}

fn word_of(bytes: &[u8]) -> u64 {
    u64::from_le_bytes(bytes.try_into().expect("chunks of a word"))
}

/// Has the folder's entry of a new file written to the device.
fn sync_folder(path: &Path) -> io::Result<()> {
    let folder = path.parent().filter(|folder| !folder.as_os_str().is_empty());
    File::open(folder.unwrap_or(Path::new(".")))?.sync_all()
}

/// The words of a pool file, by its length, and no more than the largest pool has.
fn words_in(path: &Path, file: &File) -> Result<usize, Error> {
    let about = file.metadata().map_err(|e| told(path, "cannot look at", e))?;
    let (length, least) = (about.len(), (words_of(1) * WORD_BYTES) as u64);
    let wrong = if !about.is_file() {
        "it is not a regular file".to_string()
    } else if length % WORD_BYTES as u64 != 0 {
        format!("its length of {length} bytes is not a multiple of {WORD_BYTES}")
    } else if length < least {
        format!("its length of {length} bytes is under the {least} of the smallest pool")
    } else {
        return Ok((length as usize / WORD_BYTES).min(words_of(CAPACITY_MOST)));
    };
    Err(told(path, "no pool file", io::Error::new(io::ErrorKind::InvalidData, wrong)).into())
}

fn lock(path: &Path, tried: Result<(), TryLockError>) -> Result<(), Error> {
    let Err(why) = tried else {
        return Ok(());
    };
    let cause = match why {
        TryLockError::WouldBlock => io::Error::new(io::ErrorKind::WouldBlock, "it is open elsewhere"),
        TryLockError::Error(cause) => cause,
    };
    Err(told(path, "cannot lock", cause).into())
}

/// The same failure, with the file and what was tried.
fn told(path: &Path, what: &str, cause: io::Error) -> io::Error {
    io::Error::new(cause.kind(), format!("{}: {what}: {cause}", path.display()))
}

#[cfg(test)]
mod tests {
    use super::PoolFile;
    use crate::{Error, Outcome, Refusal};
    use std::path::PathBuf;
    use std::{env, fs, process};

    /// A name in the temporary folder, whose file goes when this does.
    struct Named(PathBuf);

    impl Named {
        fn new(name: &str) -> Named {
            Named(env::temp_dir().join(format!("ombykape_{name}_{}.pool", process::id())))
        }
    }

    impl Drop for Named {
        fn drop(&mut self) {
            let _ = fs::remove_file(&self.0);
        }
    }

    /// The words of a failure to open or create.
    fn words(tried: Result<PoolFile, Error>) -> String {
        tried.err().expect("a failure").to_string()
    }

    #[test]
    fn a_put_is_found_by_the_next_open() {
        let named = Named::new("reopened");
        let mut pool = PoolFile::create(&named.0, 3).unwrap();
        assert_eq!(pool.put(7, 70).unwrap().outcome, Outcome::New);
        pool.close().unwrap();
        let pool = PoolFile::open(&named.0).unwrap();
        assert_eq!((pool.get(7), pool.get(8)), (Ok(Some(70)), Ok(None)));
    }

    #[test]
    fn an_open_file_is_not_opened_again() {
        let named = Named::new("locked");
        let pool = PoolFile::create(&named.0, 1).unwrap();
        assert!(words(PoolFile::open(&named.0)).ends_with("cannot lock: it is open elsewhere"));
        assert!(PoolFile::inspect(&named.0).is_err());
        drop(pool);
        assert!(PoolFile::open(&named.0).is_ok());
    }

    #[test]
    fn a_file_that_is_there_is_left_alone() {
        let named = Named::new("there");
        fs::write(&named.0, b"something else").unwrap();
        assert!(words(PoolFile::create(&named.0, 1)).contains("cannot create"));
        assert_eq!(fs::read(&named.0).unwrap(), b"something else");
    }

    #[test]
    fn a_bad_capacity_makes_no_file() {
        let named = Named::new("bad_capacity");
        for capacity in [0, 40_001, u64::MAX] {
            assert!(matches!(
                PoolFile::create(&named.0, capacity),
                Err(Error::Refused(Refusal::BadCapacity))
            ));
            assert!(!named.0.exists());
        }
    }

    #[test]
    fn a_length_that_no_pool_has_is_told() {
        let named = Named::new("length");
        for (length, why) in [
            (0, "under the 704"),
            (8 * 88 - 8, "under the 704"),
            (8 * 88 + 1, "not a multiple of 8"),
        ] {
            fs::write(&named.0, vec![0; length]).unwrap();
            assert!(words(PoolFile::open(&named.0)).contains(why), "{length}");
        }
        fs::write(&named.0, vec![0; 8 * 88]).unwrap();
        assert!(matches!(PoolFile::open(&named.0), Err(Error::Refused(Refusal::NoPool))));
    }
}
