//! What an engine asks of its files.

use crate::{FileId, Queue};
use std::io;
use std::sync::Arc;

/// The files of both queues of an engine: the calls that it makes to list, read and change them. [`FolderFiles`] keeps the files
/// in a folder, and [`MemoryFiles`] in memory.
///
/// An engine first calls [`list`](Files::list) for each queue, and reads the files that it names. From then on the calls that
/// change something come one after another, never two at once; [`read`](Files::read) comes from any thread at any time. After an
/// `Err` of a call that changes something an engine makes no further such call, unless [`is_as_before`](Files::is_as_before)
/// allows it to repeat this one.
///
/// That no crash of the machine takes away what was synced is proved for the sequence of these calls, on a disk that does the
/// following with them. An implementor answers for each point:
///
/// - Of bytes that weren't synced a crash leaves a prefix: no hole, and no page of zeros before others. So files are neither made
///   longer beforehand nor used again. Bytes that were synced aren't harmed by those written after them.
/// - [`sync`](Files::sync) makes the names of new files, and deletions, safe too, as a sync of the folder does.
///   [`rotate`](Files::rotate) first syncs the file that it closes. [`truncate`](Files::truncate) is on the disk when it returns.
/// - Deletions take effect in the order in which they were asked, so that no crash leaves an older file where a younger one is
///   gone.
/// - After a call that failed, either all is as before it, or every later call that changes something fails. After a sync that
///   failed no later one can be believed: a system may take bytes for synced that it has dropped. So the machine is started again
///   before such files are listed. Where [`is_as_before`](Files::is_as_before) says that all is as before the call, an engine may
///   repeat it.
/// - [`read`](Files::read) returns the bytes that were written at the place, or fails.
/// - All that [`list`](Files::list) names is on the disk, with its bytes. A process that was killed may have left bytes that a
///   reader sees, but that a failure of power takes away; so an implementor syncs the files that it finds, and their folder,
///   first.
/// - No two engines have the same files open.
///
/// Files of your own can be made of others, here of [`MemoryFiles`]:
///
/// ```
/// use raft_recover::{Engine, FileId, Files, LogBatch, MemoryFiles, Options, Queue};
/// use std::io;
/// use std::sync::atomic::{AtomicUsize, Ordering::Relaxed};
///
/// /// Files that count the syncs.
/// struct Counting(MemoryFiles, AtomicUsize);
///
/// impl Files for Counting {
///     fn list(&self, queue: Queue) -> io::Result<Vec<(u64, u64)>> {
///         self.0.list(queue)
///     }
///     fn write(&self, file: FileId, bytes: &[u8]) -> io::Result<()> {
///         self.0.write(file, bytes)
///     }
///     fn sync(&self, queue: Queue) -> io::Result<()> {
///         self.1.fetch_add(1, Relaxed);
///         self.0.sync(queue)
///     }
///     fn rotate(&self, file: FileId) -> io::Result<()> {
///         self.0.rotate(file)
///     }
///     fn delete(&self, file: FileId) -> io::Result<()> {
///         self.0.delete(file)
///     }
///     fn truncate(&self, file: FileId, len: u64) -> io::Result<()> {
///         self.0.truncate(file, len)
///     }
///     fn read(&self, file: FileId, offset: u64, bytes: &mut [u8]) -> io::Result<()> {
///         self.0.read(file, offset, bytes)
///     }
/// }
///
/// let engine = Engine::with_files(Counting(MemoryFiles::new(), 0.into()), Options::new())?;
/// let before = engine.files().1.load(Relaxed);
/// let mut batch = LogBatch::new()?;
/// batch.put(7, b"key", b"value")?;
/// engine.write(&mut batch, true)?;
/// assert_eq!(engine.files().1.load(Relaxed) - before, 1);
/// # Ok::<(), raft_recover::Error>(())
/// ```
///
/// [`FolderFiles`]: crate::FolderFiles
/// [`MemoryFiles`]: crate::MemoryFiles
pub trait Files: Send + Sync {
    /// Returns the files of a queue, oldest first: the number of each, and its length in bytes.
    ///
    /// ```
    /// # use raft_recover::{FileId, Files, MemoryFiles, Queue};
    /// # let files = MemoryFiles::new();
    /// # let file = FileId::new(Queue::Append, 1);
    /// files.rotate(file)?;
    /// files.write(file, b"bytes")?;
    /// assert_eq!(files.list(Queue::Append)?, [(1, 5)]);
    /// # Ok::<(), std::io::Error>(())
    /// ```
    ///
    /// # Errors
    ///
    /// Those of the system.
    fn list(&self, queue: Queue) -> io::Result<Vec<(u64, u64)>>;

    /// Writes bytes at the end of a file. It is the last file of its queue.
    ///
    /// ```
    /// # use raft_recover::{FileId, Files, MemoryFiles, Queue};
    /// # let files = MemoryFiles::new();
    /// # let file = FileId::new(Queue::Append, 1);
    /// files.rotate(file)?;
    /// files.write(file, b"bytes")?;
    /// files.write(file, b", and more")?;
    /// assert_eq!(files.list(Queue::Append)?, [(1, 15)]);
    /// # Ok::<(), std::io::Error>(())
    /// ```
    ///
    /// # Errors
    ///
    /// Those of the system. Some of the bytes may be in the file then.
    fn write(&self, file: FileId, bytes: &[u8]) -> io::Result<()>;

    /// Makes all changes of a queue so far safe: once the call returns `Ok`, no crash takes them away.
    ///
    /// ```
    /// # use raft_recover::{FileId, Files, MemoryFiles, Queue};
    /// # let files = MemoryFiles::new();
    /// # let file = FileId::new(Queue::Append, 1);
    /// files.rotate(file)?;
    /// files.write(file, b"bytes")?;
    /// files.sync(Queue::Append)?;
    /// assert_eq!(files.unsynced(files.asked(), Queue::Append).steps, 0);
    /// # Ok::<(), std::io::Error>(())
    /// ```
    ///
    /// # Errors
    ///
    /// Those of the system. The changes may be safe or not then.
    fn sync(&self, queue: Queue) -> io::Result<()>;

    /// Makes an empty file, which becomes the last one of its queue. First it syncs the file that was the last one.
    ///
    /// ```
    /// # use raft_recover::{FileId, Files, MemoryFiles, Queue};
    /// # let files = MemoryFiles::new();
    /// # let file = FileId::new(Queue::Append, 1);
    /// files.rotate(file)?;
    /// files.write(file, b"bytes")?;
    /// files.rotate(FileId::new(Queue::Append, 2))?;
    /// assert_eq!(files.list(Queue::Append)?, [(1, 5), (2, 0)]);
    /// # Ok::<(), std::io::Error>(())
    /// ```
    ///
    /// # Errors
    ///
    /// Those of the system. The file may be there then.
    fn rotate(&self, file: FileId) -> io::Result<()>;

    /// Deletes a file. It is the oldest one of its queue, and not the last.
    ///
    /// ```
    /// # use raft_recover::{FileId, Files, MemoryFiles, Queue};
    /// # let files = MemoryFiles::new();
    /// # let file = FileId::new(Queue::Append, 1);
    /// files.rotate(file)?;
    /// files.write(file, b"bytes")?;
    /// files.rotate(FileId::new(Queue::Append, 2))?;
    /// files.delete(file)?;
    /// assert_eq!(files.list(Queue::Append)?, [(2, 0)]);
    /// # Ok::<(), std::io::Error>(())
    /// ```
    ///
    /// # Errors
    ///
    /// Those of the system. The file may be gone then.
    fn delete(&self, file: FileId) -> io::Result<()>;

    /// Cuts a file to `len` bytes, if it has more. It is the last file of its queue, and cut only while an engine is opened. What
    /// is cut off may be kept elsewhere first, as [`FolderFiles`](crate::FolderFiles) does.
    ///
    /// ```
    /// # use raft_recover::{FileId, Files, MemoryFiles, Queue};
    /// # let files = MemoryFiles::new();
    /// # let file = FileId::new(Queue::Append, 1);
    /// files.rotate(file)?;
    /// files.write(file, b"bytes")?;
    /// files.truncate(file, 2)?;
    /// assert_eq!(files.list(Queue::Append)?, [(1, 2)]);
    /// # Ok::<(), std::io::Error>(())
    /// ```
    ///
    /// # Errors
    ///
    /// Those of the system. The file may be cut or not then.
    fn truncate(&self, file: FileId, len: u64) -> io::Result<()>;

    /// Gives back the room on the disk of files that were deleted, where [`delete`](Files::delete) left that to this call; else
    /// it does nothing. To give back the room of a large file takes some file systems long. So an engine calls this after a
    /// deletion, once other threads may write again: at any time, from any thread. Files that are made of others hand the call
    /// on.
    ///
    /// ```
    /// # use raft_recover::{FileId, Files, MemoryFiles, Queue};
    /// # let files = MemoryFiles::new();
    /// files.rotate(FileId::new(Queue::Append, 1))?;
    /// files.rotate(FileId::new(Queue::Append, 2))?;
    /// files.delete(FileId::new(Queue::Append, 1))?;
    /// files.free_deleted();
    /// # Ok::<(), std::io::Error>(())
    /// ```
    fn free_deleted(&self) {}

    /// Fills all of `bytes` with those of a file from `offset` on.
    ///
    /// ```
    /// # use raft_recover::{FileId, Files, MemoryFiles, Queue};
    /// # let files = MemoryFiles::new();
    /// # let file = FileId::new(Queue::Append, 1);
    /// files.rotate(file)?;
    /// files.write(file, b"bytes")?;
    /// let mut bytes = [0; 3];
    /// files.read(file, 1, &mut bytes)?;
    /// assert_eq!(&bytes, b"yte");
    /// assert!(files.read(file, 4, &mut bytes).is_err());
    /// # Ok::<(), std::io::Error>(())
    /// ```
    ///
    /// # Errors
    ///
    /// Those of the system; also where the file is gone, or ends before `bytes` are full. What `bytes` hold then doesn't matter.
    fn read(&self, file: FileId, offset: u64, bytes: &mut [u8]) -> io::Result<()>;

    /// Tests whether the last call that should change something, and failed, left all as it was, so that it may be repeated: for
    /// example a write that found no room, of which no byte is left. It is called before any further change. Where this isn't
    /// known it returns false, as it does unless it is implemented.
    ///
    /// ```
    /// # use raft_recover::{FileId, Files, MemoryFiles, Queue};
    /// # let files = MemoryFiles::new();
    /// files.write(FileId::new(Queue::Append, 1), b"bytes").unwrap_err(); // there is no such file
    /// assert!(!files.is_as_before());
    /// ```
    fn is_as_before(&self) -> bool {
        false
    }
}

/// Hands each call on to the files in the `Arc`.
impl<F: Files + ?Sized> Files for Arc<F> {
    /// Lists the files of a queue, as the files in the `Arc` do.
    fn list(&self, queue: Queue) -> io::Result<Vec<(u64, u64)>> {
        (**self).list(queue)
    }

    /// Writes bytes at the end of a file, as the files in the `Arc` do.
    fn write(&self, file: FileId, bytes: &[u8]) -> io::Result<()> {
        (**self).write(file, bytes)
    }

    /// Syncs a queue, as the files in the `Arc` do.
    fn sync(&self, queue: Queue) -> io::Result<()> {
        (**self).sync(queue)
    }

    /// Makes a new last file, as the files in the `Arc` do.
    fn rotate(&self, file: FileId) -> io::Result<()> {
        (**self).rotate(file)
    }

    /// Deletes the oldest file of a queue, as the files in the `Arc` do.
    fn delete(&self, file: FileId) -> io::Result<()> {
        (**self).delete(file)
    }

    /// Cuts the last file of a queue, as the files in the `Arc` do.
    fn truncate(&self, file: FileId, len: u64) -> io::Result<()> {
        (**self).truncate(file, len)
    }

    /// Gives back the room of deleted files, as the files in the `Arc` do.
    fn free_deleted(&self) {
        (**self).free_deleted();
    }

    /// Reads bytes of a file, as the files in the `Arc` do.
    fn read(&self, file: FileId, offset: u64, bytes: &mut [u8]) -> io::Result<()> {
        (**self).read(file, offset, bytes)
    }

    /// Asks the files in the `Arc` whether a call that failed left all as it was.
    fn is_as_before(&self) -> bool {
        (**self).is_as_before()
    }
}
