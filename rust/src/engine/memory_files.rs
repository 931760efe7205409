//! The files of an engine in memory.

use super::{Files, locks};
use crate::{FileId, Queue};
use std::collections::VecDeque;
use std::sync::{Arc, Mutex};
use std::{fmt, io};

mod ask;
mod queue_at_crash;
mod unsynced;

pub use ask::Ask;
pub use unsynced::Unsynced;

use queue_at_crash::QueueAtCrash;

/// The files of both queues in memory, for tests. They keep a list of all changes that were asked of them, the *asks*, so that a
/// test can make what any crash would have left.
///
/// A clone is another handle of the same files.
///
/// ```
/// use raft_recover::{Engine, LogBatch, MemoryFiles, Options, Queue, Unsynced};
///
/// let files = MemoryFiles::new();
/// let engine = Engine::with_files(files.clone(), Options::new())?;
/// let mut batch = LogBatch::new()?;
/// batch.put(7, b"key", b"old")?;
/// engine.write(&mut batch, true)?;
/// batch.put(7, b"key", b"new")?;
/// engine.write(&mut batch, false)?;
///
/// let asked = files.asks().len();
/// let most = files.unsynced(asked, Queue::Append); // the bytes of the second batch
/// for steps in 0..=most.steps {
///     let front = Unsynced { steps, ..most };
///     let left = files.left(asked, front, Unsynced::default());
///     let engine = Engine::with_files(left, Options::new())?;
///     let expected: &[u8] = if front == most { b"new" } else { b"old" };
///     assert_eq!(engine.get(7, b"key")?.unwrap(), expected);
/// }
/// # Ok::<(), raft_recover::Error>(())
/// ```
#[derive(Clone, Default)]
pub struct MemoryFiles {
    state: Arc<Mutex<State>>,
}

/// The state of the files that all clones share. Arrays have the append queue first, then the rewrite queue.
#[derive(Default)]
struct State {
    /// The files before the first ask: the number and the bytes of each, oldest first.
    found: [Vec<(u64, Vec<u8>)>; 2],
    /// The files now.
    files: [VecDeque<(u64, Vec<u8>)>; 2],
    /// What was asked since then, oldest first.
    asks: Vec<Ask>,
}

impl MemoryFiles {
    /// Makes files of two empty queues, of which nothing was asked.
    ///
    /// ```
    /// use raft_recover::{Files, MemoryFiles, Queue};
    ///
    /// assert_eq!(MemoryFiles::new().list(Queue::Append)?, []);
    /// # Ok::<(), std::io::Error>(())
    /// ```
    #[must_use]
    pub fn new() -> MemoryFiles {
        MemoryFiles::default()
    }

    /// Makes files that are found when a machine starts: for each queue the number and the bytes of each file, oldest first.
    /// Nothing was asked of them, and all of them are synced.
    ///
    /// ```
    /// use raft_recover::{Files, MemoryFiles, Queue};
    ///
    /// let files = MemoryFiles::found(vec![(3, b"bytes".to_vec())], vec![]);
    /// assert_eq!(files.list(Queue::Append)?, [(3, 5)]);
    /// assert_eq!(files.asked(), 0);
    /// # Ok::<(), std::io::Error>(())
    /// ```
    #[must_use]
    pub fn found(append: Vec<(u64, Vec<u8>)>, rewrite: Vec<(u64, Vec<u8>)>) -> MemoryFiles {
        let found = [append, rewrite];
        let files = found.clone().map(VecDeque::from);
        let state = State {
            found,
            files,
            asks: Vec::new(),
        };
        MemoryFiles {
            state: Arc::new(Mutex::new(state)),
        }
    }

    /// Returns a copy of the files of a queue as they are now: the number and the bytes of each, oldest first.
    ///
    /// ```
    /// # use raft_recover::{FileId, Files, MemoryFiles, Queue};
    /// # let files = MemoryFiles::new();
    /// # let file = FileId::new(Queue::Append, 1);
    /// files.rotate(file)?;
    /// files.write(file, b"bytes")?;
    /// assert_eq!(files.files(Queue::Append), [(1, b"bytes".to_vec())]);
    /// # Ok::<(), std::io::Error>(())
    /// ```
    #[must_use]
    pub fn files(&self, queue: Queue) -> Vec<(u64, Vec<u8>)> {
        let state = locks::lock(&self.state);
        state.files[queue_position(queue)].iter().cloned().collect()
    }

    /// Returns a copy of the list of asks, oldest first. It has the changes that succeeded.
    ///
    /// ```
    /// # use raft_recover::{Ask, FileId, Files, MemoryFiles, Queue};
    /// # let files = MemoryFiles::new();
    /// # let file = FileId::new(Queue::Append, 1);
    /// files.rotate(file)?;
    /// files.write(file, b"bytes")?;
    /// files.sync(Queue::Append)?;
    /// assert_eq!(files.asks().last(), Some(&Ask::Sync(Queue::Append)));
    /// # Ok::<(), std::io::Error>(())
    /// ```
    #[must_use]
    pub fn asks(&self) -> Vec<Ask> {
        locks::lock(&self.state).asks.clone()
    }

    /// Returns how many asks there are.
    ///
    /// ```
    /// # use raft_recover::{FileId, Files, MemoryFiles, Queue};
    /// # let files = MemoryFiles::new();
    /// # let file = FileId::new(Queue::Append, 1);
    /// files.rotate(file)?;
    /// files.write(file, b"bytes")?;
    /// assert_eq!(files.asked(), files.asks().len());
    /// # Ok::<(), std::io::Error>(())
    /// ```
    #[must_use]
    pub fn asked(&self) -> usize {
        locks::lock(&self.state).asks.len()
    }

    /// Returns how much of a queue isn't synced once the first `asks` asks are done.
    ///
    /// ```
    /// # use raft_recover::{FileId, Files, MemoryFiles, Queue, Unsynced};
    /// # let files = MemoryFiles::new();
    /// # let file = FileId::new(Queue::Append, 1);
    /// files.rotate(file)?;
    /// files.write(file, b"bytes")?;
    /// files.sync(Queue::Append)?;
    /// assert_eq!(files.unsynced(2, Queue::Append).steps, 6); // before the sync
    /// assert_eq!(files.unsynced(3, Queue::Append), Unsynced::default());
    /// # Ok::<(), std::io::Error>(())
    /// ```
    #[must_use]
    pub fn unsynced(&self, asks: usize, queue: Queue) -> Unsynced {
        let state = locks::lock(&self.state);
        let asks = state.asks.iter().take(asks);
        asks.filter(|ask| ask.queue() == queue)
            .fold(Unsynced::default(), |unsynced, ask| unsynced.with_ask(ask))
    }

    /// Returns the files that a crash leaves after the first `asks` asks: of each queue what was synced, and as much of the rest
    /// as `append` and `rewrite` say. [`MemoryFiles::unsynced`] says how much that can be.
    ///
    /// ```
    /// # use raft_recover::{FileId, Files, MemoryFiles, Queue, Unsynced};
    /// # let files = MemoryFiles::new();
    /// # let file = FileId::new(Queue::Append, 1);
    /// files.rotate(file)?;
    /// files.write(file, b"bytes")?;
    /// files.sync(Queue::Append)?;
    /// files.write(file, b", and more")?;
    /// let front = Unsynced { steps: 5, deletions: 0 };
    /// let left = files.left(files.asked(), front, Unsynced::default());
    /// assert_eq!(left.files(Queue::Append), [(1, b"bytes, and".to_vec())]);
    /// # Ok::<(), std::io::Error>(())
    /// ```
    #[must_use]
    pub fn left(&self, asks: usize, append: Unsynced, rewrite: Unsynced) -> MemoryFiles {
        let state = locks::lock(&self.state);
        let left = |queue, stays| {
            let mut queue_left = QueueAtCrash::from_found(&state.found[queue_position(queue)]);
            for ask in state.asks.iter().take(asks) {
                if ask.queue() == queue {
                    queue_left.apply_ask(ask);
                }
            }
            queue_left.files_after_crash(stays)
        };
        let append = left(Queue::Append, append);
        MemoryFiles::found(append, left(Queue::Rewrite, rewrite))
    }
}

impl Files for MemoryFiles {
    /// Returns the number and the length of each file of a queue, oldest first. It never fails.
    fn list(&self, queue: Queue) -> io::Result<Vec<(u64, u64)>> {
        let state = locks::lock(&self.state);
        let files = state.files[queue_position(queue)].iter();
        Ok(files
            .map(|(seq, bytes)| (*seq, bytes.len() as u64))
            .collect())
    }

    /// Appends bytes to the last file of its queue, and notes the ask.
    ///
    /// # Errors
    ///
    /// `InvalidInput` where `file` isn't the last one of its queue. Nothing has changed then.
    fn write(&self, file: FileId, bytes: &[u8]) -> io::Result<()> {
        let mut state = locks::lock(&self.state);
        state.bytes_of_last_file(file)?.extend_from_slice(bytes);
        state.asks.push(Ask::Write(file, bytes.to_vec()));
        Ok(())
    }

    /// Notes that a sync of a queue was asked. It never fails.
    fn sync(&self, queue: Queue) -> io::Result<()> {
        locks::lock(&self.state).asks.push(Ask::Sync(queue));
        Ok(())
    }

    /// Makes an empty file, which becomes the last one of its queue, and notes the ask.
    ///
    /// # Errors
    ///
    /// `InvalidInput` where the queue has a file whose number isn't less. Nothing has changed then.
    fn rotate(&self, file: FileId) -> io::Result<()> {
        let mut state = locks::lock(&self.state);
        let files = &mut state.files[queue_position(file.queue)];
        if files.back().is_some_and(|(last, _)| *last >= file.seq) {
            return refuse("a new file has a greater number than the last one");
        }
        files.push_back((file.seq, Vec::new()));
        state.asks.push(Ask::Begin(file));
        Ok(())
    }

    /// Deletes the oldest file of a queue, and notes the ask.
    ///
    /// # Errors
    ///
    /// `InvalidInput` where `file` isn't the oldest one, or is the only one. Nothing has changed then.
    fn delete(&self, file: FileId) -> io::Result<()> {
        let mut state = locks::lock(&self.state);
        let files = &mut state.files[queue_position(file.queue)];
        if files.len() < 2 || files[0].0 != file.seq {
            return refuse("the oldest file goes first, and the last one stays");
        }
        files.pop_front();
        state.asks.push(Ask::Delete(file));
        Ok(())
    }

    /// Cuts the last file of its queue to `len` bytes, if it has more, and notes the ask.
    ///
    /// # Errors
    ///
    /// `InvalidInput` where `file` isn't the last one of its queue. Nothing has changed then.
    fn truncate(&self, file: FileId, len: u64) -> io::Result<()> {
        let mut state = locks::lock(&self.state);
        cut_bytes(state.bytes_of_last_file(file)?, len);
        state.asks.push(Ask::Cut(file, len));
        Ok(())
    }

    /// Fills all of `bytes` with those of a file from `offset` on.
    ///
    /// # Errors
    ///
    /// `NotFound` where there is no such file; `UnexpectedEof` where it ends before `bytes` are full. `bytes` stay as they are
    /// then.
    fn read(&self, file: FileId, offset: u64, bytes: &mut [u8]) -> io::Result<()> {
        let state = locks::lock(&self.state);
        let mut files = state.files[queue_position(file.queue)].iter();
        let Some((_, held)) = files.find(|(seq, _)| *seq == file.seq) else {
            return Err(io::ErrorKind::NotFound.into());
        };
        let from = usize::try_from(offset).unwrap_or(usize::MAX);
        let found = held.get(from..).and_then(|rest| rest.get(..bytes.len()));
        bytes.copy_from_slice(found.ok_or(io::ErrorKind::UnexpectedEof)?);
        Ok(())
    }
}

impl State {
    /// Lends the bytes of `file`, to be changed. It has to be the last file of its queue.
    ///
    /// # Errors
    ///
    /// `InvalidInput` where it isn't.
    fn bytes_of_last_file(&mut self, file: FileId) -> io::Result<&mut Vec<u8>> {
        match self.files[queue_position(file.queue)].back_mut() {
            Some((seq, bytes)) if *seq == file.seq => Ok(bytes),
            _ => refuse("the file isn't the last one of its queue"),
        }
    }
}

impl fmt::Debug for MemoryFiles {
    /// Shows how many asks there are.
    fn fmt(&self, f: &mut fmt::Formatter<'_>) -> fmt::Result {
        f.debug_struct("MemoryFiles")
            .field("asked", &self.asked())
            .finish_non_exhaustive()
    }
}

/// Returns the position of a queue in an array of both.
const fn queue_position(queue: Queue) -> usize {
    match queue {
        Queue::Append => 0,
        Queue::Rewrite => 1,
    }
}

/// Cuts bytes to `len`, if there are more.
fn cut_bytes(bytes: &mut Vec<u8>, len: u64) {
    bytes.truncate(usize::try_from(len).unwrap_or(usize::MAX));
}

/// Returns an `Err` of kind `InvalidInput`, for a change that no engine asks. `why` is the rule that it breaks.
fn refuse<T>(why: &str) -> io::Result<T> {
    Err(io::Error::new(io::ErrorKind::InvalidInput, why))
}
