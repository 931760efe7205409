//! Locks a folder, so that one engine at a time changes it.

use crate::{Error, ErrorKind, Result};
use std::fs::{File, OpenOptions, TryLockError};
use std::io;
use std::path::Path;

/// The name of the file that is locked together with the folder. raft-engine, and older versions of this crate, look at the lock
/// of that file alone.
const LOCK: &str = "LOCK";

/// A folder that is locked as long as this value lives.
#[derive(Debug)]
pub(super) struct LockedFolder {
    /// The open folder. Nobody can take its lock away by deleting a file.
    pub(super) folder: File,
    /// The locked file `LOCK`; `None` where there is none, which only a shared lock allows.
    lock: Option<File>,
}

impl Drop for LockedFolder {
    /// Gives the locks back. Closing the files alone isn't enough: a process that another thread starts just then shares the open
    /// files for a moment, until it runs its own program.
    fn drop(&mut self) {
        let _ = self.folder.unlock();
        if let Some(lock) = &self.lock {
            let _ = lock.unlock();
        }
    }
}

impl LockedFolder {
    /// Locks a folder to change it. The file `LOCK` is made if it isn't there.
    ///
    /// # Errors
    ///
    /// `TryAgain` where another engine has the folder open; `Io`. No lock is held then.
    pub(super) fn lock_exclusive(path: &Path) -> Result<LockedFolder> {
        let folder = File::open(path).map_err(|e| Error::io(path.display(), e))?;
        check_lock(path, folder.try_lock())?;
        let mut locked = LockedFolder { folder, lock: None };
        let lock_path = path.join(LOCK);
        let mut how = OpenOptions::new();
        how.create(true).truncate(false).read(true).write(true);
        let lock = how
            .open(&lock_path)
            .map_err(|e| Error::io(lock_path.display(), e))?;
        check_lock(&lock_path, lock.try_lock())?;
        locked.lock = Some(lock);
        Ok(locked)
    }

    /// Locks a folder to read it: others may do so at the same time, but no engine can change it. Nothing is made, so the right
    /// to read is enough.
    ///
    /// # Errors
    ///
    /// `TryAgain` where an engine has the folder open that writes; `Io`. No lock is held then.
    pub(super) fn lock_shared(path: &Path) -> Result<LockedFolder> {
        let folder = File::open(path).map_err(|e| Error::io(path.display(), e))?;
        check_lock(path, folder.try_lock_shared())?;
        let mut locked = LockedFolder { folder, lock: None };
        let lock_path = path.join(LOCK);
        let lock = match File::open(&lock_path) {
            Err(e) if e.kind() == io::ErrorKind::NotFound => return Ok(locked),
            lock => lock.map_err(|e| Error::io(lock_path.display(), e))?,
        };
        check_lock(&lock_path, lock.try_lock_shared())?;
        locked.lock = Some(lock);
        Ok(locked)
    }
}

/// Checks `locked`, the result of an attempt to lock `path`, and returns it with an error of this crate.
///
/// # Errors
///
/// `TryAgain` where another engine has the lock; `Io` where the system refused to lock.
fn check_lock(path: &Path, locked: std::result::Result<(), TryLockError>) -> Result<()> {
    let path = path.display();
    locked.map_err(|refused| match refused {
        TryLockError::WouldBlock => {
            let text = format!("TryAgain Error: {path}: another engine has the folder open");
            Error::new(ErrorKind::TryAgain, text)
        }
        TryLockError::Error(e) => Error::io(path, e),
    })
}
