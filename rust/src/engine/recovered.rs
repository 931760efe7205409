//! What was found in the files of an engine when it was opened that can't be read.

use crate::{Error, FileId};
use std::fmt;

/// What an opening couldn't read in the files of an engine ([`Engine::recovered`](crate::Engine::recovered)): the tail of each
/// queue's last file, which was cut off, and the other batches of the last append file whose entries are damaged, which were kept.
///
/// ```
/// use raft_recover::{Engine, ErrorKind, Files, LogBatch, MemoryFiles, Options, Queue};
///
/// let files = MemoryFiles::new();
/// let engine = Engine::with_files(files.clone(), Options::new())?;
/// let mut batch = LogBatch::new()?;
/// batch.put(7, b"key", b"value")?;
/// engine.write(&mut batch, true)?;
/// let whole = engine.stats().append.bytes;
/// assert_eq!(engine.recovered().cuts().count(), 0);
///
/// let mut append = files.files(Queue::Append);
/// append[0].1.extend(b"a torn tail");
/// let found = MemoryFiles::found(append, files.files(Queue::Rewrite));
/// let engine = Engine::with_files(found, Options::new())?;
/// let cut = engine.recovered().append.as_ref().unwrap();
/// assert_eq!((cut.file.seq, cut.offset, cut.len), (1, whole, 11));
/// assert_eq!(cut.reason.as_ref().unwrap().kind, ErrorKind::Corruption);
/// assert_eq!(engine.recovered().rewrite, None);
/// assert_eq!(engine.recovered().damaged, []);
/// # Ok::<(), raft_recover::Error>(())
/// ```
#[derive(Clone, PartialEq, Eq, Hash, Debug, Default)]
#[non_exhaustive]
pub struct Recovered {
    /// What was cut off the last append file; `None` where that file could be read to its end, and the entries of its last batch
    /// are sound.
    pub append: Option<CutTail>,
    /// What was cut off the last rewrite file; `None` where that file could be read to its end.
    pub rewrite: Option<CutTail>,
    /// The batches of the last append file whose entries are damaged, in the order in which they are in the file. Behind each of
    /// them stands a batch with sound entries. All other entries of that file are sound.
    pub damaged: Vec<DamagedBatch>,
}

/// The end of a queue's last file that was cut off, since no batch can be read where it begins; or, of an append file, since the
/// entries are damaged of the batch that begins there and no batch with sound entries stands behind it.
///
/// Its `Display` is a line for people:
///
/// ```
/// use raft_recover::{Engine, MemoryFiles, Options};
///
/// let found = MemoryFiles::found(vec![(3, b"torn".to_vec())], vec![]);
/// let engine = Engine::with_files(found, Options::new())?;
/// let shown = engine.recovered().append.as_ref().unwrap().to_string();
/// assert!(shown.starts_with("append file 3, offset 0: 4 bytes were cut off: "), "{shown}");
/// # Ok::<(), raft_recover::Error>(())
/// ```
#[derive(Clone, PartialEq, Eq, Hash, Debug)]
#[non_exhaustive]
pub struct CutTail {
    /// The file that it was cut off.
    pub file: FileId,
    /// Where in the file the tail began, in bytes: the length of the file since then.
    pub offset: u64,
    /// How many bytes were cut off.
    pub len: u64,
    /// Why no batch, or no entry of the batch, can be read there, as the error that a read would return.
    pub reason: Option<Error>,
}

/// A batch of the last append file whose entries are damaged, in front of a batch with sound ones: on a disk that writes pages in
/// any order, a crash came before all of its pages were written; or they were damaged later. The batch is kept, with its keys and
/// commands. Its entries are refused when they are read. That error has the offset of the entry block, which is 16 bytes, the
/// length of the batch's header, behind that of the batch.
///
/// Its `Display` is a line for people:
///
/// ```
/// use raft_recover::{Engine, LogBatch, MemoryFiles, Options, Queue};
///
/// let files = MemoryFiles::new();
/// let engine = Engine::with_files(files.clone(), Options::new())?;
/// let mut batch = LogBatch::new()?;
/// batch.add_entries(7, 1, &["an entry"])?;
/// engine.write(&mut batch, true)?;
/// batch.put(7, b"key", b"value")?;
/// engine.write(&mut batch, true)?;
///
/// let mut append = files.files(Queue::Append);
/// append[0].1[16] ^= 1; // the first byte of the entry
/// let engine = Engine::with_files(MemoryFiles::found(append, vec![]), Options::new())?;
/// let damaged = &engine.recovered().damaged;
/// assert_eq!((damaged.len(), damaged[0].offset), (1, 0));
/// assert_eq!(damaged[0].to_string(), "append file 1, offset 0: the entries of this batch are damaged");
/// let refused = engine.entry(7, 1).unwrap_err();
/// assert_eq!((refused.file, refused.offset), (Some(damaged[0].file), Some(16)));
/// assert_eq!(engine.get(7, b"key")?.unwrap(), b"value");
/// # Ok::<(), raft_recover::Error>(())
/// ```
#[derive(Clone, PartialEq, Eq, Hash, Debug)]
#[non_exhaustive]
pub struct DamagedBatch {
    /// The file that the batch is in.
    pub file: FileId,
    /// Where in the file the batch begins, in bytes.
    pub offset: u64,
    /// Why its entries can't be read.
    pub reason: Error,
}

impl Recovered {
    /// Returns the tails that were cut off, at most one of each queue, that of the append queue first.
    ///
    /// ```
    /// # use raft_recover::{Engine, MemoryFiles, Options};
    /// let found = MemoryFiles::found(vec![(1, vec![7; 10])], vec![(1, vec![7; 20])]);
    /// let engine = Engine::with_files(found, Options::new())?;
    /// let lens: Vec<_> = engine.recovered().cuts().map(|cut| cut.len).collect();
    /// assert_eq!(lens, [10, 20]);
    /// # Ok::<(), raft_recover::Error>(())
    /// ```
    pub fn cuts(&self) -> impl Iterator<Item = &CutTail> {
        self.append.iter().chain(&self.rewrite)
    }
}

impl fmt::Display for DamagedBatch {
    /// Shows the text of the reason without its kind: it begins with the file and the offset.
    fn fmt(&self, f: &mut fmt::Formatter<'_>) -> fmt::Result {
        let text = &self.reason.text;
        f.pad(text.strip_prefix("Corruption: ").unwrap_or(text))
    }
}

impl fmt::Display for CutTail {
    /// Shows the file, the offset, how many bytes were cut off, and the reason.
    fn fmt(&self, f: &mut fmt::Formatter<'_>) -> fmt::Result {
        let CutTail {
            file,
            offset,
            len,
            reason,
        } = self;
        write!(f, "{file}, offset {offset}: {len} bytes were cut off")?;
        match reason {
            Some(reason) => write!(f, ": {reason}"),
            None => Ok(()),
        }
    }
}
