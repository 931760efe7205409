//! A change that was asked of files.

use crate::{FileId, Queue};

/// A change that was asked of [`MemoryFiles`](crate::MemoryFiles): the calls of [`Files`](crate::Files) that change something.
///
/// ```
/// # use raft_recover::{Ask, FileId, Files, MemoryFiles, Queue};
/// # let files = MemoryFiles::new();
/// # let file = FileId::new(Queue::Append, 1);
/// files.rotate(file)?;
/// files.write(file, b"bytes")?;
/// assert_eq!(files.asks(), [Ask::Begin(file), Ask::Write(file, b"bytes".to_vec())]);
/// # Ok::<(), std::io::Error>(())
/// ```
#[derive(Clone, PartialEq, Eq, Hash, Debug)]
#[non_exhaustive]
pub enum Ask {
    /// Write the bytes at the end of the file.
    Write(FileId, Vec<u8>),
    /// Make all that was asked of the queue safe from a crash.
    Sync(Queue),
    /// Make the file, the new last one of its queue.
    Begin(FileId),
    /// Delete the file, the oldest one of its queue.
    Delete(FileId),
    /// Cut the file to a length in bytes, if it is longer.
    Cut(FileId, u64),
}

impl Ask {
    /// Returns the queue that the change is for.
    ///
    /// ```
    /// # use raft_recover::{FileId, Files, MemoryFiles, Queue};
    /// # let files = MemoryFiles::new();
    /// # let file = FileId::new(Queue::Append, 1);
    /// files.rotate(file)?;
    /// files.write(file, b"bytes")?;
    /// assert!(files.asks().iter().all(|ask| ask.queue() == Queue::Append));
    /// # Ok::<(), std::io::Error>(())
    /// ```
    #[must_use]
    pub const fn queue(&self) -> Queue {
        match self {
            Ask::Sync(queue) => *queue,
            Ask::Write(file, _) | Ask::Begin(file) | Ask::Delete(file) | Ask::Cut(file, _) => {
                file.queue
            }
        }
    }
}
