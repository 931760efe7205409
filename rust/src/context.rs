//! Contexts: what was read of a stretch of a queue.

use crate::sys::ContextHandle;
use crate::{Error, FilePart, Queue, Result, Tables};
use std::fmt;

/// How much a context holds ([`Context::kept`]). A count that doesn't fit in 64 bits is 2^64 - 1.
///
/// ```
/// use raft_recover::{Context, Kept};
///
/// let nothing = Kept { entries: 0, keys: 0, marks: 0, deleted_keys: 0, cleaned: 0, waiting_items: 0 };
/// assert_eq!(Context::new()?.kept()?, nothing);
/// # Ok::<(), raft_recover::Error>(())
/// ```
#[derive(Clone, Copy, PartialEq, Eq, Hash, Debug)]
pub struct Kept {
    /// How many entries all tables have.
    pub entries: u64,
    /// How many key values all tables have.
    pub keys: u64,
    /// How many regions have a region mark, plus how many atomic groups have a group marker. (A *region mark* says what the
    /// batches that were read do to a region's older records.)
    pub marks: u64,
    /// How many deleted keys the region marks have.
    pub deleted_keys: u64,
    /// How many regions are in the list of cleaned ones.
    pub cleaned: u64,
    /// How many items of atomic groups wait for the end of their group.
    pub waiting_items: u64,
}

/// What was read of a stretch of a queue: neighboring batches.
///
/// Contexts of neighboring stretches may be read on as many threads as one likes, and are then merged. The tables are those of
/// one reading of all batches in order. After an error a context holds nothing, and each further call returns [`Failed`].
///
/// What is proved assumes that the batches of a queue name fewer than 2^63 entries, key values and deletions together, and that
/// contexts are merged in the order of their batches.
///
/// ```
/// use raft_recover::{Context, FilePart, LogBatch, LogFile, Queue, Version};
///
/// let read = |seq| {
///     let file = LogFile::new(Queue::Append, seq, Version::V2);
///     let mut batch = LogBatch::new()?;
///     batch.add_entries(7, seq, &["an entry"])?;
///     batch.finish()?;
///     batch.sign(file)?;
///     let mut context = Context::new()?;
///     context.replay(FilePart::new(file, &batch.bytes()?))?;
///     Ok::<_, raft_recover::Error>(context)
/// };
/// let (mut older, newer) = (read(1)?, read(2)?);
/// older.merge(newer, Queue::Append)?;
/// assert_eq!(older.kept()?.entries, 2);
/// let tables = older.finish()?;
/// assert_eq!(tables.regions()?, [7]);
/// # Ok::<(), raft_recover::Error>(())
/// ```
///
/// A context that was handed to a merge is gone:
///
/// ```compile_fail,E0382
/// use raft_recover::{Context, Queue};
///
/// let (mut older, newer) = (Context::new().unwrap(), Context::new().unwrap());
/// older.merge(newer, Queue::Append).unwrap();
/// newer.finish().unwrap();
/// ```
///
/// [`Failed`]: crate::ErrorKind::Failed
pub struct Context {
    handle: Option<ContextHandle>,
}

impl Context {
    /// Makes a context that has read nothing.
    ///
    /// ```
    /// let tables = raft_recover::Context::new()?.finish()?;
    /// assert_eq!(tables.regions()?, []);
    /// # Ok::<(), raft_recover::Error>(())
    /// ```
    ///
    /// # Errors
    ///
    /// `Memory`.
    pub fn new() -> Result<Context> {
        Ok(Context {
            handle: Some(ContextHandle::new()?),
        })
    }

    /// Replays the log batches of a part, which have to follow those that were replayed before. The bytes are only borrowed for
    /// the call.
    ///
    /// ```
    /// # use raft_recover::{Context, FilePart, LogBatch, LogFile, Queue, Version};
    /// # let file = LogFile::new(Queue::Append, 1, Version::V2);
    /// # let mut batch = LogBatch::new()?;
    /// # batch.add_entries(7, 1, &["an entry"])?;
    /// # batch.finish()?;
    /// # batch.sign(file)?;
    /// # let bytes = batch.bytes()?;
    /// let mut context = Context::new()?;
    /// context.replay(FilePart::new(file, &bytes))?;
    /// assert_eq!(context.kept()?.entries, 1);
    /// # Ok::<(), raft_recover::Error>(())
    /// ```
    ///
    /// # Errors
    ///
    /// `InvalidArgument` where the bytes end past offset 2^64 - 1; the context then stays as it is. `Corruption`, `Codec` or `Io`
    /// where the bytes aren't a sequence of readable batches, or these can't follow the ones before; `Full` where more than 2^64
    /// - 1 records would be live; `Memory`; `Failed`. The context is empty then.
    pub fn replay(&mut self, part: FilePart<'_>) -> Result<()> {
        part.check_end()?;
        let handle = self.take_handle()?;
        self.handle = Some(handle.replay(part)?);
        Ok(())
    }

    /// Merges into this context the context `newer`, of the batches that follow. Both have to be of the queue `queue`.
    ///
    /// ```
    /// # use raft_recover::{Context, FilePart, LogBatch, LogFile, Queue, Version};
    /// # let file = LogFile::new(Queue::Append, 1, Version::V2);
    /// # let mut batch = LogBatch::new()?;
    /// # batch.add_entries(7, 1, &["an entry"])?;
    /// # batch.finish()?;
    /// # batch.sign(file)?;
    /// # let bytes = batch.bytes()?;
    /// let mut newer = Context::new()?;
    /// newer.replay(FilePart::new(file, &bytes))?;
    /// let mut older = Context::new()?;
    /// older.merge(newer, Queue::Append)?;
    /// assert_eq!(older.kept()?.entries, 1);
    /// # Ok::<(), raft_recover::Error>(())
    /// ```
    ///
    /// # Errors
    ///
    /// `InvalidArgument` where one of both is of the other queue; `Corruption` where the first file of `newer` has a lower number
    /// than the last file of this one, or entries leave a hole; `Full`; `Memory`; `Failed`. What both have read is lost then.
    pub fn merge(&mut self, mut newer: Context, queue: Queue) -> Result<()> {
        let handle = self.take_handle()?;
        let newer = newer.take_handle()?;
        self.handle = Some(handle.merge(newer, queue)?);
        Ok(())
    }

    /// Puts the records of the append queue, read by the context `append`, over those of the rewrite queue, read by this one.
    /// Only [`Context::kept`] and [`Context::finish`] may be called after that.
    ///
    /// ```
    /// # use raft_recover::{Context, FilePart, LogBatch, LogFile, Queue, Version};
    /// # let file = LogFile::new(Queue::Append, 1, Version::V2);
    /// # let mut batch = LogBatch::new()?;
    /// # batch.add_entries(7, 1, &["an entry"])?;
    /// # batch.finish()?;
    /// # batch.sign(file)?;
    /// # let bytes = batch.bytes()?;
    /// let mut append = Context::new()?;
    /// append.replay(FilePart::new(file, &bytes))?;
    /// let mut both = Context::new()?;
    /// both.overlay(append)?;
    /// assert_eq!(both.finish()?.regions()?, [7]);
    /// # Ok::<(), raft_recover::Error>(())
    /// ```
    ///
    /// # Errors
    ///
    /// `InvalidArgument` where one of both is of the other queue; `Full`; `Memory`; `Failed`. What both have read is lost then.
    pub fn overlay(&mut self, mut append: Context) -> Result<()> {
        let handle = self.take_handle()?;
        let append = append.take_handle()?;
        self.handle = Some(handle.overlay(append)?);
        Ok(())
    }

    /// Counts what the context holds.
    ///
    /// ```
    /// # use raft_recover::{Context, FilePart, LogBatch, LogFile, Queue, Version};
    /// # let file = LogFile::new(Queue::Append, 1, Version::V2);
    /// # let mut batch = LogBatch::new()?;
    /// # batch.add_entries(7, 1, &["an entry"])?;
    /// # batch.finish()?;
    /// # batch.sign(file)?;
    /// # let bytes = batch.bytes()?;
    /// let mut context = Context::new()?;
    /// context.replay(FilePart::new(file, &bytes))?;
    /// let kept = context.kept()?;
    /// assert_eq!((kept.entries, kept.keys, kept.marks), (1, 0, 1));
    /// # Ok::<(), raft_recover::Error>(())
    /// ```
    ///
    /// # Errors
    ///
    /// `Failed` where an earlier call failed.
    pub fn kept(&mut self) -> Result<Kept> {
        self.handle.as_mut().ok_or_else(Error::failed)?.count_kept()
    }

    /// Returns the tables of what was read.
    ///
    /// ```
    /// # use raft_recover::{Context, FilePart, LogBatch, LogFile, Queue, Version};
    /// # let file = LogFile::new(Queue::Append, 1, Version::V2);
    /// # let mut batch = LogBatch::new()?;
    /// # batch.add_entries(7, 1, &["an entry"])?;
    /// # batch.finish()?;
    /// # batch.sign(file)?;
    /// # let bytes = batch.bytes()?;
    /// let mut context = Context::new()?;
    /// context.replay(FilePart::new(file, &bytes))?;
    /// let expected = "7 entries 1..2 keys 0 append 1 rewrite -\ncleaned -\nlive 1 0\n";
    /// assert_eq!(context.finish()?.to_string(), expected);
    /// # Ok::<(), raft_recover::Error>(())
    /// ```
    ///
    /// # Errors
    ///
    /// `Memory`; `Failed` where an earlier call failed.
    pub fn finish(mut self) -> Result<Tables> {
        let tables = self.take_handle()?.finish()?;
        Ok(Tables::from_handle(tables))
    }

    /// Takes the handle out for a call of the library. The caller puts it back, unless that call fails.
    ///
    /// # Errors
    ///
    /// `Failed` where an earlier call failed, so that there is no handle.
    fn take_handle(&mut self) -> Result<ContextHandle> {
        self.handle.take().ok_or_else(Error::failed)
    }
}

impl fmt::Debug for Context {
    /// Shows whether an earlier call failed.
    fn fmt(&self, f: &mut fmt::Formatter<'_>) -> fmt::Result {
        f.debug_struct("Context")
            .field("is_failed", &self.handle.is_none())
            .finish_non_exhaustive()
    }
}
