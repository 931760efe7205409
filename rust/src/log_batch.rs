//! Log batches that are made here, to be written.

use crate::sys::{LogBatchHandle, Packed};
use crate::{Batch, Error, ErrorKind, FileId, LogFile, Result, Summary};
use std::fmt;

mod adding;
mod shapes;
mod stage;

use shapes::{Shape, Shapes};
pub use stage::Stage;

/// A log batch that is made here, to be written: items, and the bytes of their entries. As long as it is open, items are added.
/// Then an engine writes it ([`Engine::write`](crate::Engine::write)); or a program makes its bytes, signs them for a file,
/// writes them there, and applies the items to tables.
///
/// It is `Send` and not `Sync`. After a call that failed it is as it was; but `into_items` loses it.
///
/// ```
/// use raft_recover::{LogBatch, LogFile, Queue, Stage, Tables, Version};
///
/// let mut tables = Tables::new()?;
/// let file = LogFile::new(Queue::Append, 1, Version::V2);
/// let mut written = Vec::new(); // the file
///
/// let mut batch = LogBatch::new()?;
/// batch.add_entries(7, 1, &["an entry", "another one"])?;
/// batch.put(7, b"key", b"value")?;
/// tables.check_append(&batch)?;
/// let len = batch.finish()?;
/// batch.sign(file)?;
/// assert_eq!(batch.stage(), Stage::Signed);
/// let offset = written.len() as u64;
/// written.extend(batch.bytes()?);
/// batch.written(file.into(), offset)?;
/// tables.apply_append(batch.into_items()?)?;
///
/// let entry = tables.entry(7, 2).unwrap();
/// let from = entry.block.offset as usize + entry.offset as usize;
/// assert_eq!(&written[from..from + entry.len as usize], b"another one");
/// assert_eq!(written.len(), len);
/// # Ok::<(), raft_recover::Error>(())
/// ```
///
/// A batch can't be merged with itself, and is gone once its items are taken out:
///
/// ```compile_fail,E0499
/// let mut batch = raft_recover::LogBatch::new().unwrap();
/// batch.merge(&mut batch).unwrap();
/// ```
///
/// ```compile_fail,E0382
/// let batch = raft_recover::LogBatch::new().unwrap();
/// batch.into_items().unwrap();
/// batch.stage();
/// ```
pub struct LogBatch {
    handle: LogBatchHandle,
    /// The file that it is signed for; `None` where it isn't signed.
    signed: Option<FileId>,
    /// What each item does to the entries of its region, to name one that doesn't fit.
    shapes: Shapes,
    /// Room in which entries are packed before they are added.
    room: Packed,
}

impl LogBatch {
    /// Makes a log batch of the library's handle of an open batch without items.
    fn from_handle(handle: LogBatchHandle) -> LogBatch {
        LogBatch {
            handle,
            signed: None,
            shapes: Shapes::default(),
            room: Packed::default(),
        }
    }

    /// Makes a log batch of the library's handle of an open batch that has a `Clean` for each of `regions`, in this order.
    pub(crate) fn from_cleans(handle: LogBatchHandle, regions: &[u64]) -> LogBatch {
        let mut batch = LogBatch::from_handle(handle);
        for region in regions {
            batch.shapes.note(*region, Shape::Clean);
        }
        batch
    }

    /// Returns the library's handle of this batch, for calls that only read it.
    pub(crate) fn handle(&self) -> &LogBatchHandle {
        &self.handle
    }

    /// Returns the library's handle of this batch, for calls that change it.
    pub(crate) fn handle_mut(&mut self) -> &mut LogBatchHandle {
        &mut self.handle
    }

    /// Makes an open batch without items.
    ///
    /// ```
    /// use raft_recover::LogBatch;
    ///
    /// assert!(LogBatch::new()?.into_items()?.is_empty());
    /// # Ok::<(), raft_recover::Error>(())
    /// ```
    ///
    /// # Errors
    ///
    /// `Memory`.
    pub fn new() -> Result<LogBatch> {
        Ok(LogBatch::from_handle(LogBatchHandle::new()?))
    }

    /// Makes an open batch without items, with room for entries of `bytes` bytes together. [`LogBatch::add_entries`] and
    /// [`LogBatch::add_messages`] pack entries there; for that many bytes they don't ask for more room. It keeps this room when
    /// it is written.
    ///
    /// ```
    /// # use raft_recover::LogBatch;
    /// let mut batch = LogBatch::with_capacity(1 << 16)?;
    /// batch.add_entries(7, 1, &["one", "two"])?;
    /// # Ok::<(), raft_recover::Error>(())
    /// ```
    ///
    /// # Errors
    ///
    /// `Memory`.
    pub fn with_capacity(bytes: usize) -> Result<LogBatch> {
        let mut batch = LogBatch::new()?;
        batch.room = Packed::with_capacity(bytes)?;
        Ok(batch)
    }

    /// Returns how far the batch has come: whether it is open, its bytes are made, or they are signed.
    ///
    /// ```
    /// # use raft_recover::{LogBatch, LogFile, Queue, Stage, Version};
    /// # let mut batch = LogBatch::new()?;
    /// batch.finish()?;
    /// batch.sign(LogFile::new(Queue::Append, 1, Version::V2))?;
    /// assert_eq!(batch.stage(), Stage::Signed);
    /// # Ok::<(), raft_recover::Error>(())
    /// ```
    #[must_use]
    pub fn stage(&self) -> Stage {
        self.handle.stage()
    }

    /// Tests whether the batch has no items.
    ///
    /// ```
    /// # use raft_recover::LogBatch;
    /// # let mut batch = LogBatch::new()?;
    /// assert!(batch.is_empty());
    /// batch.clean(7)?;
    /// assert!(!batch.is_empty());
    /// # Ok::<(), raft_recover::Error>(())
    /// ```
    #[must_use]
    pub fn is_empty(&self) -> bool {
        self.approximate_size() == 0
    }

    /// Returns how many items were added. A call that adds entries adds one item, whatever their number; one without entries adds
    /// none.
    ///
    /// ```
    /// # use raft_recover::LogBatch;
    /// # let mut batch = LogBatch::new()?;
    /// batch.add_entries(7, 1, &["one", "two"])?;
    /// batch.compact(7, 2)?;
    /// assert_eq!(batch.len(), 2);
    /// # Ok::<(), raft_recover::Error>(())
    /// ```
    #[must_use]
    pub fn len(&self) -> usize {
        self.shapes.len()
    }

    /// Removes all items. The batch is then open, at whatever stage it was. Room for entries is kept.
    ///
    /// ```
    /// # use raft_recover::{LogBatch, Stage};
    /// # let mut batch = LogBatch::new()?;
    /// batch.clean(7)?;
    /// batch.finish()?;
    /// batch.clear()?;
    /// assert_eq!((batch.len(), batch.stage()), (0, Stage::Open));
    /// # Ok::<(), raft_recover::Error>(())
    /// ```
    ///
    /// # Errors
    ///
    /// `Memory`. The batch is then as it was.
    pub fn clear(&mut self) -> Result<()> {
        self.handle = LogBatchHandle::new()?;
        self.signed = None;
        self.shapes.clear();
        Ok(())
    }

    /// Notes that the library has written the batch and taken its items, so that it is empty and open: forgets the shapes of
    /// these items.
    pub(crate) fn note_written(&mut self) {
        self.shapes.clear();
    }

    /// Adds to `refused`, if it is of kind `Corruption`, the item that is its reason, and returns it: the first item whose
    /// entries don't fit those of their region. Only regions for which `is_tested` is true are looked at. `summary` returns
    /// what a region has before the batch. An error of another kind, or without such an item, is returned as it is.
    pub(crate) fn name_refused_item(
        &self,
        refused: Error,
        is_tested: impl Fn(u64) -> bool,
        summary: impl FnMut(u64) -> Option<Summary>,
    ) -> Error {
        if refused.kind != ErrorKind::Corruption {
            return refused;
        }
        match self.shapes.find_refused_item(is_tested, summary) {
            Some((item, region, index)) => refused.with_item(item).with_region(region, Some(index)),
            None => refused,
        }
    }

    /// Returns about how many bytes the batch will have, or exactly how many it has once they are made; 0 without items.
    ///
    /// ```
    /// # use raft_recover::LogBatch;
    /// # let mut batch = LogBatch::new()?;
    /// batch.clean(7)?;
    /// assert!(batch.approximate_size() > 0);
    /// assert_eq!(batch.finish()?, batch.approximate_size());
    /// # Ok::<(), raft_recover::Error>(())
    /// ```
    #[must_use]
    pub fn approximate_size(&self) -> usize {
        self.handle.approximate_size()
    }

    /// Moves all items of another batch to the end of this one. The other one is empty then. Both have to be open.
    ///
    /// ```
    /// # use raft_recover::LogBatch;
    /// # let mut batch = LogBatch::new()?;
    /// let mut more = LogBatch::new()?;
    /// more.clean(8)?;
    /// batch.merge(&mut more)?;
    /// assert_eq!((batch.into_items()?.len(), more.into_items()?.len()), (1, 0));
    /// # Ok::<(), raft_recover::Error>(())
    /// ```
    ///
    /// # Errors
    ///
    /// `InvalidArgument` where one of both is no longer open; `Full` where the entries would have 2^31 bytes or more together;
    /// `Memory`. Both are as they were then.
    pub fn merge(&mut self, more: &mut LogBatch) -> Result<()> {
        self.shapes.reserve_for(&more.shapes)?;
        self.handle.merge(&mut more.handle)?;
        self.shapes.append(&mut more.shapes);
        Ok(())
    }

    /// Makes the bytes of the batch, and returns how many they are: 0 without items. Nothing can be added from then on.
    ///
    /// ```
    /// # use raft_recover::LogBatch;
    /// # let mut batch = LogBatch::new()?;
    /// batch.clean(7)?;
    /// let len = batch.finish()?;
    /// assert!(len > 0);
    /// batch.clean(8).unwrap_err();
    /// # Ok::<(), raft_recover::Error>(())
    /// ```
    ///
    /// # Errors
    ///
    /// `InvalidArgument` where the batch is no longer open; `Full` where it would have 2^56 bytes or more; `Memory`. It is as it
    /// was then.
    pub fn finish(&mut self) -> Result<usize> {
        self.handle.finish()
    }

    /// Signs the bytes for a file, as its version asks ([`Version`](crate::Version)). A batch may be signed again, for another
    /// file.
    ///
    /// ```
    /// # use raft_recover::{LogBatch, LogFile, Queue, Version};
    /// # let mut batch = LogBatch::new()?;
    /// batch.clean(7)?;
    /// batch.finish()?;
    /// let signed = |batch: &mut LogBatch, seq| {
    ///     batch.sign(LogFile::new(Queue::Append, seq, Version::V2))?;
    ///     batch.bytes()
    /// };
    /// assert_ne!(signed(&mut batch, 1)?, signed(&mut batch, 2)?);
    /// # Ok::<(), raft_recover::Error>(())
    /// ```
    ///
    /// # Errors
    ///
    /// `InvalidArgument` where the batch is still open.
    pub fn sign(&mut self, file: LogFile) -> Result<()> {
        self.handle.sign(file)?;
        self.signed = Some(file.into());
        Ok(())
    }

    /// Returns a copy of the bytes to be written to the file that they are signed for; none without items.
    ///
    /// ```
    /// # use raft_recover::{LogBatch, LogFile, Queue, Version};
    /// # let mut batch = LogBatch::new()?;
    /// batch.clean(7)?;
    /// let len = batch.finish()?;
    /// batch.sign(LogFile::new(Queue::Append, 1, Version::V2))?;
    /// assert_eq!(batch.bytes()?.len(), len);
    /// # Ok::<(), raft_recover::Error>(())
    /// ```
    ///
    /// # Errors
    ///
    /// `InvalidArgument` where the bytes aren't signed; `Memory`.
    pub fn bytes(&self) -> Result<Vec<u8>> {
        self.handle.bytes()
    }

    /// Notes that the bytes were written to `file`, from `offset` on: each entry gets its place there, and each key value its
    /// file.
    ///
    /// ```
    /// # use raft_recover::{FileId, LogBatch, LogFile, Queue, Version};
    /// # let mut batch = LogBatch::new()?;
    /// let file = LogFile::new(Queue::Append, 1, Version::V2);
    /// batch.add_entries(7, 1, &["an entry"])?;
    /// batch.finish()?;
    /// batch.sign(file)?;
    /// batch.written(FileId::new(Queue::Append, 2), 0).unwrap_err();
    /// batch.written(file.into(), 0)?;
    /// # Ok::<(), raft_recover::Error>(())
    /// ```
    ///
    /// # Errors
    ///
    /// `InvalidArgument` where the bytes aren't signed, or are signed for another file, or the offset is above 2^64 - 17.
    pub fn written(&mut self, file: FileId, offset: u64) -> Result<()> {
        if self.signed.is_some_and(|signed| signed != file) {
            return Err(Error::invalid_argument(
                "the batch is signed for another file",
            ));
        }
        let len = self.approximate_size();
        self.handle.place_items(file, offset, len)
    }

    /// Returns the items, to be applied to tables or to be read. After [`LogBatch::written`] alone they have places, without
    /// which entries can't be read.
    ///
    /// ```
    /// # use raft_recover::LogBatch;
    /// # let mut batch = LogBatch::new()?;
    /// batch.clean(7)?;
    /// for item in batch.into_items()? {
    ///     assert_eq!(item.region, 7);
    /// }
    /// # Ok::<(), raft_recover::Error>(())
    /// ```
    ///
    /// # Errors
    ///
    /// `Memory`. The batch is lost then.
    pub fn into_items(self) -> Result<Batch> {
        Ok(Batch::from_handle(self.handle.into_items()?))
    }
}

impl fmt::Debug for LogBatch {
    /// Shows the stage, the number of items, and about how many bytes the batch has.
    fn fmt(&self, f: &mut fmt::Formatter<'_>) -> fmt::Result {
        f.debug_struct("LogBatch")
            .field("stage", &self.stage())
            .field("len", &self.len())
            .field("approximate_size", &self.approximate_size())
            .finish_non_exhaustive()
    }
}
