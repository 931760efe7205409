//! Reads batches, item by item.

use crate::sys::{self, ItemsHandle};
use crate::{Error, ErrorKind, FilePart, Result};
use std::iter::FusedIterator;

mod batch;
mod item;
mod iterators;

pub use batch::Batch;
pub use item::{Content, Item};
pub use iterators::{BatchIntoIter, BatchIter};

/// Iterates over the log batches in a part of a file, one behind the other. It ends behind the first error.
///
/// ```
/// use raft_recover::{Batches, Content, FilePart, LogBatch, LogFile, Queue, Version};
///
/// let file = LogFile::new(Queue::Append, 1, Version::V2);
/// let mut bytes = Vec::new();
/// for value in ["one", "two"] {
///     let mut batch = LogBatch::new()?;
///     batch.put(7, b"key", value.as_bytes())?;
///     batch.finish()?;
///     batch.sign(file)?;
///     bytes.extend(batch.bytes()?);
/// }
/// let mut values = Vec::new();
/// for batch in Batches::new(FilePart::new(file, &bytes))? {
///     for item in batch? {
///         if let Content::Put { value, .. } = item.content {
///             values.push(value);
///         }
///     }
/// }
/// assert_eq!(values, [b"one", b"two"]);
/// # Ok::<(), raft_recover::Error>(())
/// ```
///
/// The bytes are lent to it, so they can't be changed meanwhile:
///
/// ```compile_fail,E0506
/// use raft_recover::{Batches, FilePart, LogFile, Queue, Version};
///
/// let mut bytes = [0; 16];
/// let file = LogFile::new(Queue::Append, 1, Version::V2);
/// let mut batches = Batches::new(FilePart::new(file, &bytes)).unwrap();
/// bytes[0] = 1;
/// batches.next();
/// ```
#[derive(Clone, Debug)]
#[must_use = "an iterator does nothing until it is asked"]
pub struct Batches<'a> {
    part: FilePart<'a>,
    /// Where in the part the next batch begins; `None` behind the end, or behind an error.
    at: Option<usize>,
}

impl<'a> Batches<'a> {
    /// Makes an iterator over the batches of a part, from its first byte on. Nothing is read yet.
    ///
    /// ```
    /// # use raft_recover::{Batches, FilePart, LogBatch, LogFile, Queue, Version};
    /// # let file = LogFile::new(Queue::Append, 1, Version::V2);
    /// # let mut batch = LogBatch::new()?;
    /// # batch.clean(7)?;
    /// # let len = batch.finish()?;
    /// # batch.sign(file)?;
    /// # let bytes = batch.bytes()?;
    /// let batches = Batches::new(FilePart::new(file, &bytes))?;
    /// assert_eq!(batches.count(), 1);
    /// # Ok::<(), raft_recover::Error>(())
    /// ```
    ///
    /// # Errors
    ///
    /// `InvalidArgument` where the bytes end past offset 2^64 - 1.
    pub fn new(part: FilePart<'a>) -> Result<Batches<'a>> {
        part.check_end()?;
        Ok(Batches { part, at: Some(0) })
    }

    /// Returns where in the part the next batch begins, in bytes. At the end of the part it is the length of the part until
    /// `next` returns `None`; from then on, and behind an error, it is `None`.
    ///
    /// ```
    /// # use raft_recover::{Batches, FilePart, LogBatch, LogFile, Queue, Version};
    /// # let file = LogFile::new(Queue::Append, 1, Version::V2);
    /// # let mut batch = LogBatch::new()?;
    /// # batch.clean(7)?;
    /// # let len = batch.finish()?;
    /// # batch.sign(file)?;
    /// # let bytes = batch.bytes()?;
    /// let mut batches = Batches::new(FilePart::new(file, &bytes))?;
    /// assert_eq!(batches.next_at(), Some(0));
    /// batches.next();
    /// assert_eq!(batches.next_at(), Some(len));
    /// # Ok::<(), raft_recover::Error>(())
    /// ```
    #[must_use]
    pub fn next_at(&self) -> Option<usize> {
        self.at
    }
}

impl Iterator for Batches<'_> {
    type Item = Result<Batch>;

    /// Reads the next batch, and returns its items, or the error for which it can't be read; `None` at the end of the part,
    /// and behind an error.
    fn next(&mut self) -> Option<Result<Batch>> {
        let at = self.at.take()?;
        match ItemsHandle::read_batch_at(self.part, at) {
            Ok(Some((handle, next))) => {
                self.at = Some(next);
                Some(Ok(Batch::from_handle(handle)))
            }
            Ok(None) => None,
            Err(e) => Some(Err(with_place_in_part(e, self.part, at))),
        }
    }
}

impl FusedIterator for Batches<'_> {}

/// Returns how many bytes of a part, from the first one on, are readable batches, one behind the other, and the error of the
/// batch behind them; `None` where the part ends there. So in a last file the torn tail begins at that offset. Whether the bytes
/// of entries are damaged isn't tested.
///
/// ```
/// use raft_recover::{ErrorKind, FilePart, LogBatch, LogFile, Queue, Version, readable_front};
///
/// let file = LogFile::new(Queue::Append, 1, Version::V2);
/// let mut batch = LogBatch::new()?;
/// batch.clean(7)?;
/// let len = batch.finish()?;
/// batch.sign(file)?;
/// let torn = [batch.bytes()?, b"a write that stopped half way".to_vec()].concat();
/// let (front, refused) = readable_front(FilePart::new(file, &torn))?;
/// assert_eq!(front, len);
/// let refused = refused.unwrap();
/// assert_eq!((refused.kind, refused.offset), (ErrorKind::Corruption, Some(len as u64)));
/// assert_eq!(readable_front(FilePart::new(file, &torn[..front]))?, (len, None));
/// # Ok::<(), raft_recover::Error>(())
/// ```
///
/// # Errors
///
/// `InvalidArgument` where the bytes end past offset 2^64 - 1.
pub fn readable_front(part: FilePart<'_>) -> Result<(usize, Option<Error>)> {
    part.check_end()?;
    let (front, refused) = sys::readable_front(part);
    Ok((front, refused.map(|e| with_place_in_part(e, part, front))))
}

/// Returns the error of the batch at the byte `at` of a part with its file and offset. `Memory`, which concerns no place, is
/// returned as it is.
fn with_place_in_part(refused: Error, part: FilePart<'_>, at: usize) -> Error {
    match refused.kind {
        ErrorKind::Memory => refused,
        _ => refused.with_place(part.file.into(), part.offset + at as u64),
    }
}

/// Returns how many bytes the log batch at the start of `bytes` has, by its header; `None` where no header stands there. There
/// may be fewer bytes, and whether the batch can be read isn't tested. So files are cut between batches, for
/// [`recover`](crate::recover):
///
/// ```
/// use raft_recover::{FilePart, batch_len};
///
/// /// The batches of a part, each as a part.
/// fn cut(whole: FilePart<'_>) -> Vec<FilePart<'_>> {
///     let (mut parts, mut at) = (Vec::new(), 0);
///     while let Some(len) = batch_len(&whole.bytes[at..]) {
///         let end = at.saturating_add(len).min(whole.bytes.len());
///         let (offset, bytes) = (whole.offset + at as u64, &whole.bytes[at..end]);
///         parts.push(FilePart { offset, bytes, ..whole });
///         at = end;
///     }
///     parts
/// }
///
/// assert_eq!(batch_len(b""), None);
/// # use raft_recover::{LogBatch, LogFile, Queue, Version};
/// # let file = LogFile::new(Queue::Append, 1, Version::V2);
/// # let mut batch = LogBatch::new()?;
/// # batch.clean(7)?;
/// # let len = batch.finish()?;
/// # batch.sign(file)?;
/// # let bytes = batch.bytes()?.repeat(3);
/// # let offsets: Vec<_> = cut(FilePart::new(file, &bytes)).iter().map(|part| part.offset as usize).collect();
/// # assert_eq!(offsets, [0, len, 2 * len]);
/// # Ok::<(), raft_recover::Error>(())
/// ```
#[must_use]
pub fn batch_len(bytes: &[u8]) -> Option<usize> {
    sys::batch_len(bytes)
}

/// Returns the CRC-32 of bytes, the one that zip files have.
///
/// ```
/// assert_eq!(raft_recover::crc32(b"123456789"), 0xCBF4_3926);
/// ```
#[must_use]
pub fn crc32(bytes: &[u8]) -> u32 {
    sys::crc32(bytes)
}
