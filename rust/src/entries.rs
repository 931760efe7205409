//! Records of a region: entries with their places, and keys with their values.

use crate::FileId;

/// An entry of a region's log: its index, and where its bytes are.
///
/// ```
/// use raft_recover::{Block, Entry, FileId, Queue, Tables};
///
/// let block = Block { file: FileId::new(Queue::Append, 1), offset: 16, len: 24 };
/// let entry = Entry { index: 5, block, offset: 0, len: 20 };
/// let mut tables = Tables::new()?;
/// tables.append(7, &[entry])?;
/// assert_eq!(tables.entry(7, 5), Some(entry));
/// # Ok::<(), raft_recover::Error>(())
/// ```
#[derive(Clone, Copy, PartialEq, Eq, Hash, Debug)]
pub struct Entry {
    /// The index in the region's log.
    pub index: u64,
    /// The place of the entry block that has its bytes.
    pub block: Block,
    /// Where in the entry block its bytes begin, in bytes.
    pub offset: u32,
    /// How many bytes it has.
    pub len: u32,
}

/// The place of an *entry block*: the bytes of all entries of a batch, and their checksum behind them. A batch whose entries are
/// all empty has no such block; their place is then one of no bytes.
///
/// ```
/// use raft_recover::{Content, FileId, LogBatch, LogFile, Queue, Version};
///
/// let file = LogFile::new(Queue::Append, 1, Version::V2);
/// let mut batch = LogBatch::new()?;
/// batch.add_entries(7, 1, &["an entry"])?;
/// batch.finish()?;
/// batch.sign(file)?;
/// batch.written(file.into(), 100)?;
/// let Content::Entries(entries) = batch.into_items()?.get(0).unwrap().content else {
///     unreachable!()
/// };
/// let block = entries[0].block;
/// assert_eq!((block.file, block.offset), (FileId::new(Queue::Append, 1), 116));
/// assert_eq!(block.len, "an entry".len() + 4); // with the checksum
/// # Ok::<(), raft_recover::Error>(())
/// ```
#[derive(Clone, Copy, PartialEq, Eq, Hash, Debug)]
pub struct Block {
    /// The file.
    pub file: FileId,
    /// Where in the file the block begins, in bytes.
    pub offset: u64,
    /// How many bytes the block has, with its checksum.
    pub len: usize,
}

/// A key of a region and its value.
///
/// ```
/// use raft_recover::{FileId, Pair, Queue, Tables};
///
/// let mut tables = Tables::new()?;
/// tables.put(7, b"key", b"value", FileId::new(Queue::Append, 1))?;
/// let pair = Pair { key: b"key".to_vec(), value: b"value".to_vec() };
/// assert_eq!(tables.pairs(7)?, [pair]);
/// # Ok::<(), raft_recover::Error>(())
/// ```
#[derive(Clone, PartialEq, Eq, Hash, Debug)]
pub struct Pair {
    /// The key.
    pub key: Vec<u8>,
    /// The value.
    pub value: Vec<u8>,
}
