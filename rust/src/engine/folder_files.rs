//! The files of an engine in a folder.

use super::{Files, locks};
use crate::{Error, FileId, Queue, Result};
use std::collections::{BTreeMap, BTreeSet};
use std::fmt;
use std::fs::{self, File, OpenOptions};
use std::io;
use std::mem;
use std::path::{Path, PathBuf};
use std::sync::{Arc, Mutex, RwLock};

mod aside;
mod locking;
mod names;
mod reading;
mod writing;

use locking::LockedFolder;
use names::{log_file_name, parse_log_file_name};
use reading::read_at;
use writing::{ChangeError, is_out_of_room, write_all_or_nothing};

/// The files of both queues in a folder, as `0000000000000001.raftlog` and `0000000000000001.rewrite`, and a file `LOCK`. That
/// file and the folder itself are locked as long as this value lives. Files with other names are left alone.
///
/// What an opening cuts off a file is first kept in a file beside, whose name says the offset:
/// `0000000000000001.raftlog.4096.cut`, or `0000000000000001.raftlog.4096.2.cut` where other bytes were cut off there before. No
/// engine reads or deletes these: look at them where a batch is missing, and delete them when you like.
///
/// The folder is synced as soon as a name in it is made or deleted. A file without new bytes isn't synced again. A write that
/// finds no room leaves no byte in the file, if the system allows that, and may be repeated. After any other `Err` of a call that
/// changes something every later such call fails: open the folder again to find what the disk has.
///
/// ```
/// use raft_recover::{ErrorKind, Files, FolderFiles, Queue};
///
/// # let path = std::env::temp_dir().join(format!("raft-recover-folder-files-{}", std::process::id()));
/// let files = FolderFiles::open(&path)?;
/// assert_eq!(files.list(Queue::Append)?, []);
/// assert_eq!(FolderFiles::open(&path).unwrap_err().kind, ErrorKind::TryAgain);
/// drop(files);
/// FolderFiles::open(&path)?;
/// # std::fs::remove_dir_all(path)?;
/// # Ok::<(), Box<dyn std::error::Error>>(())
/// ```
pub struct FolderFiles {
    path: PathBuf,
    /// The open folder with its locks; it is synced where a name in it is made or deleted.
    locked: LockedFolder,
    /// All log files, open, by their ids.
    files: RwLock<BTreeMap<FileId, Arc<File>>>,
    /// Files whose names were deleted, still open: the system gives back the room of a file once it is closed, which may take
    /// long.
    deleted: Mutex<Vec<Arc<File>>>,
    /// What was changed. A change holds this lock until it is made.
    changes: Mutex<Changes>,
}

/// Which files aren't synced, and whether changes are refused.
#[derive(Default)]
struct Changes {
    /// Why every further change is refused; `None` as long as changes are made.
    refused: Option<&'static str>,
    /// The files with bytes that aren't synced.
    unsynced: BTreeSet<FileId>,
}

impl FolderFiles {
    /// Opens a folder with all log files in it. A folder that isn't there is made, if its parent folder is. Where the path is a
    /// link, the folder is the one to which it leads now, wherever it leads later. The folder is locked before anything in it is
    /// read or made. All log files, their names and that of the folder are synced.
    ///
    /// ```
    /// # use raft_recover::FolderFiles;
    /// # let path = std::env::temp_dir().join(format!("raft-recover-open-files-{}", std::process::id()));
    /// let files = FolderFiles::open(&path)?;
    /// assert!(path.join("LOCK").is_file());
    /// # std::fs::remove_dir_all(path).unwrap();
    /// # Ok::<(), raft_recover::Error>(())
    /// ```
    ///
    /// # Errors
    ///
    /// `TryAgain` where another engine has the folder open; `InvalidArgument` where a name ends as those of log files do, but
    /// isn't one, or is that of something else than a file; `Io`.
    pub fn open(path: impl AsRef<Path>) -> Result<FolderFiles> {
        let path = path.as_ref();
        let about = |e| Error::io(path.display(), e);
        match fs::create_dir(path) {
            Err(e) if e.kind() != io::ErrorKind::AlreadyExists => return Err(about(e)),
            _ => {}
        }
        let path = fs::canonicalize(path).map_err(about)?;
        let locked = LockedFolder::lock_exclusive(&path)?;
        let files = open_log_files(&path, open_and_sync)?;
        locked.folder.sync_all().map_err(about)?;
        let parent = File::open(path.join("..")).map_err(about)?;
        parent.sync_all().map_err(about)?;
        Ok(FolderFiles {
            path,
            locked,
            files: RwLock::new(files),
            deleted: Mutex::default(),
            changes: Mutex::default(),
        })
    }

    /// Opens a folder with all log files in it for reading only. Every change is refused. Nothing is made or synced, so the
    /// right to read is enough. The folder, and the file `LOCK`, if it is there, get a shared lock: others may read at the same
    /// time, but no engine can change, move or delete what is read.
    ///
    /// ```
    /// # use raft_recover::{FileId, Files, FolderFiles, Queue};
    /// # let path = std::env::temp_dir().join(format!("raft-recover-read-only-files-{}", std::process::id()));
    /// let first = FileId::new(Queue::Append, 1);
    /// FolderFiles::open(&path)?.rotate(first)?;
    /// let files = FolderFiles::open_read_only(&path)?;
    /// assert_eq!(files.list(Queue::Append)?, [(1, 0)]);
    /// assert!(files.write(first, b"bytes").is_err());
    /// # std::fs::remove_dir_all(path)?;
    /// # Ok::<(), Box<dyn std::error::Error>>(())
    /// ```
    ///
    /// # Errors
    ///
    /// `TryAgain` where an engine has the folder open that writes; `InvalidArgument` where a name ends as those of log files do,
    /// but isn't one, or is that of something else than a file; `Io`, also where there is no folder.
    pub fn open_read_only(path: impl AsRef<Path>) -> Result<FolderFiles> {
        let path = path.as_ref();
        let path = fs::canonicalize(path).map_err(|e| Error::io(path.display(), e))?;
        let locked = LockedFolder::lock_shared(&path)?;
        let files = open_log_files(&path, File::open)?;
        let changes = Changes {
            refused: Some("the folder is open for reading alone"),
            unsynced: BTreeSet::new(),
        };
        Ok(FolderFiles {
            path,
            locked,
            files: RwLock::new(files),
            deleted: Mutex::default(),
            changes: Mutex::new(changes),
        })
    }

    /// Returns the real path of the folder: absolute, and without links.
    ///
    /// ```
    /// # use raft_recover::FolderFiles;
    /// # let path = std::env::temp_dir().join(format!("raft-recover-path-{}", std::process::id()));
    /// assert_eq!(FolderFiles::open(&path)?.path(), path);
    /// # std::fs::remove_dir_all(path).unwrap();
    /// # Ok::<(), raft_recover::Error>(())
    /// ```
    #[must_use]
    pub fn path(&self) -> &Path {
        &self.path
    }

    /// Returns the path of a log file, whether it is there or not.
    ///
    /// ```
    /// # use raft_recover::{FileId, FolderFiles, Queue};
    /// # let path = std::env::temp_dir().join(format!("raft-recover-path-of-{}", std::process::id()));
    /// let files = FolderFiles::open(&path)?;
    /// let first = files.path_of(FileId::new(Queue::Append, 1));
    /// assert_eq!(first, path.join("0000000000000001.raftlog"));
    /// # std::fs::remove_dir_all(path).unwrap();
    /// # Ok::<(), raft_recover::Error>(())
    /// ```
    #[must_use]
    pub fn path_of(&self, file: FileId) -> PathBuf {
        self.path.join(log_file_name(file))
    }

    /// Returns the open log file that has the id `id`.
    ///
    /// # Errors
    ///
    /// `NotFound` where the folder has no such file, or it was deleted.
    fn get_open_file(&self, id: FileId) -> io::Result<Arc<File>> {
        let files = locks::lock_to_read(&self.files);
        let file = files.get(&id).cloned();
        file.ok_or_else(|| io::Error::new(io::ErrorKind::NotFound, "the file isn't there"))
    }

    /// Syncs the files of a queue that are in `unsynced`, and removes each from the set once it is synced. Their names were
    /// synced when they were made.
    ///
    /// # Errors
    ///
    /// `NotFound` where one of them isn't in the folder or was deleted; those of the system. The files that are still in
    /// `unsynced` may not be synced.
    fn sync_unsynced(&self, queue: Queue, unsynced: &mut BTreeSet<FileId>) -> io::Result<()> {
        while let Some(file) = unsynced.range(ids_of_queue(queue)).next().copied() {
            self.get_open_file(file)?.sync_data()?;
            unsynced.remove(&file);
        }
        Ok(())
    }

    /// Makes one change of the files by `change`, under the lock of changes. `change` gets the set of files with bytes that
    /// aren't synced, to bring it up to date. As long as it hasn't returned `Ok` or `AsBefore`, the change counts as half
    /// made, also where it panics.
    ///
    /// # Errors
    ///
    /// Those of `change`. After one that may have left the change half made (`InPart`), and in a folder that is open to be read
    /// alone, every change is refused.
    fn make_change(
        &self,
        change: impl FnOnce(&mut BTreeSet<FileId>) -> std::result::Result<(), ChangeError>,
    ) -> io::Result<()> {
        let mut changes = locks::lock(&self.changes);
        if let Some(why) = changes.refused {
            return Err(io::Error::other(why));
        }
        changes.refused = Some("an earlier change failed");
        let result = match change(&mut changes.unsynced) {
            Ok(()) => Ok(()),
            Err(ChangeError::AsBefore(e)) => Err(e),
            Err(ChangeError::InPart(e)) => return Err(e),
        };
        changes.refused = None;
        result
    }
}

impl Files for FolderFiles {
    /// Returns the number of each file of a queue, and the length that it has now, oldest first.
    ///
    /// # Errors
    ///
    /// Those of the system, where a length can't be read.
    fn list(&self, queue: Queue) -> io::Result<Vec<(u64, u64)>> {
        let files = locks::lock_to_read(&self.files);
        let of_queue = files.range(ids_of_queue(queue));
        of_queue
            .map(|(id, file)| Ok((id.seq, file.metadata()?.len())))
            .collect()
    }

    /// Writes bytes at the end of a file. Where there is no room for all of them the file is cut back to its old length.
    ///
    /// # Errors
    ///
    /// Those of the system; `Other` where changes are refused. Unless [`Files::is_as_before`] is true then, some bytes may
    /// be in the file, and all further changes are refused.
    fn write(&self, file: FileId, bytes: &[u8]) -> io::Result<()> {
        self.make_change(|unsynced| {
            unsynced.insert(file);
            write_all_or_nothing(self.get_open_file(file)?.as_ref(), bytes)
        })
    }

    /// Syncs the files of a queue that have bytes that aren't synced.
    ///
    /// # Errors
    ///
    /// Those of the system; `Other` where changes are refused. Further changes are refused then.
    fn sync(&self, queue: Queue) -> io::Result<()> {
        self.make_change(|unsynced| Ok(self.sync_unsynced(queue, unsynced)?))
    }

    /// Syncs the files of the queue, makes an empty file, and syncs its name.
    ///
    /// # Errors
    ///
    /// Those of the system, also where there is a file of that name; `Other` where changes are refused. Further changes are
    /// refused then, unless there was no room for the file: then it isn't there.
    fn rotate(&self, file: FileId) -> io::Result<()> {
        self.free_deleted(); // none is left, but where this is wrapped in files that don't hand the call on
        self.make_change(|unsynced| {
            self.sync_unsynced(file.queue, unsynced)?;
            let mut how = OpenOptions::new();
            how.create_new(true).read(true).append(true);
            let opened = how.open(self.path_of(file)).map_err(|e| {
                if is_out_of_room(&e) {
                    return ChangeError::AsBefore(e);
                }
                e.into()
            })?;
            self.locked.folder.sync_all()?;
            locks::lock_to_change(&self.files).insert(file, Arc::new(opened));
            Ok(())
        })
    }

    /// Deletes a file, and syncs the folder. The file stays open, so that its room on the disk is given back only by
    /// [`Files::free_deleted`].
    ///
    /// # Errors
    ///
    /// Those of the system; `Other` where changes are refused. Further changes are refused then, and the file may be gone.
    fn delete(&self, file: FileId) -> io::Result<()> {
        self.make_change(|unsynced| {
            unsynced.remove(&file);
            let opened = locks::lock_to_change(&self.files).remove(&file);
            locks::lock(&self.deleted).extend(opened);
            fs::remove_file(self.path_of(file))?;
            Ok(self.locked.folder.sync_all()?)
        })
    }

    /// Cuts a file to `len` bytes, if it has more, and syncs it. What is cut off is first kept in a file beside, which is
    /// synced too.
    ///
    /// # Errors
    ///
    /// Those of the system; `Other` where changes are refused. Further changes are refused then, and the file may be cut or
    /// not.
    fn truncate(&self, file: FileId, len: u64) -> io::Result<()> {
        self.make_change(|unsynced| {
            let opened = self.get_open_file(file)?;
            let old = opened.metadata()?.len();
            if len < old {
                let mut tail = vec![0; (old - len) as usize];
                read_at(&opened, &mut tail, len)?;
                aside::keep_aside(&self.path, file, len, &tail)?;
                self.locked.folder.sync_all()?;
                opened.set_len(len)?;
                opened.sync_all()?;
                unsynced.remove(&file);
            }
            Ok(())
        })
    }

    /// Closes the deleted files, so that the system gives back their room.
    fn free_deleted(&self) {
        let deleted = mem::take(&mut *locks::lock(&self.deleted));
        drop(deleted); // without the lock
    }

    /// Fills all of `bytes` with those of a file from `offset` on.
    ///
    /// # Errors
    ///
    /// `NotFound` where the folder has no such file; those of the system, also where the file ends before `bytes` are full.
    fn read(&self, file: FileId, offset: u64, bytes: &mut [u8]) -> io::Result<()> {
        read_at(self.get_open_file(file)?.as_ref(), bytes, offset)
    }

    /// Tests whether changes aren't refused: the last one that failed, if any did, left all as it was.
    fn is_as_before(&self) -> bool {
        locks::lock(&self.changes).refused.is_none()
    }
}

impl fmt::Debug for FolderFiles {
    /// Shows the path of the folder.
    fn fmt(&self, f: &mut fmt::Formatter<'_>) -> fmt::Result {
        f.debug_struct("FolderFiles")
            .field("path", &self.path)
            .finish_non_exhaustive()
    }
}

/// Opens all log files in a folder, and returns them by their ids. `open` opens one, given its path. Other names are passed over.
///
/// # Errors
///
/// `InvalidArgument` for a name that ends as those of log files do, but isn't one, or is that of something else than a file, such
/// as a folder or a pipe; `Io`.
fn open_log_files(
    folder: &Path,
    open: impl Fn(PathBuf) -> io::Result<File>,
) -> Result<BTreeMap<FileId, Arc<File>>> {
    let about = |e| Error::io(folder.display(), e);
    let mut files = BTreeMap::new();
    for entry in fs::read_dir(folder).map_err(about)? {
        let entry = entry.map_err(about)?;
        if let Some(id) = parse_log_file_name(&entry.file_name().to_string_lossy())? {
            let path = entry.path();
            let about = |e| Error::io(path.display(), e);
            if !fs::metadata(&path).map_err(about)?.is_file() {
                let text = format!("{} isn't a file", path.display());
                return Err(Error::invalid_argument(&text)); // to open a pipe might take for ever
            }
            let file = open(path.clone()).map_err(about)?;
            files.insert(id, Arc::new(file));
        }
    }
    Ok(files)
}

/// Opens a log file to be read, and to be written at its end, and syncs it.
///
/// # Errors
///
/// Those of the system.
fn open_and_sync(path: PathBuf) -> io::Result<File> {
    let file = OpenOptions::new().read(true).append(true).open(path)?;
    file.sync_all()?;
    Ok(file)
}

/// Returns the range of all ids that files of a queue can have: the numbers 0 to 2^64 - 1.
fn ids_of_queue(queue: Queue) -> std::ops::RangeInclusive<FileId> {
    FileId::new(queue, 0)..=FileId::new(queue, u64::MAX)
}
