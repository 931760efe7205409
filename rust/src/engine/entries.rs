//! Entries that were read, and how their blocks are read.

use super::Engine;
use crate::sys::check_entry_block;
use crate::{Block, Entry, Error, Files, Result};
use std::fmt;
use std::iter::FusedIterator;
use std::ops::Range;
use std::sync::Arc;
use std::vec;

/// Iterates over the bytes of entries of a region, in the order of their indexes.
///
/// All of them were read, and their checksums tested, before the value was returned. What is written later doesn't show.
///
/// ```
/// use raft_recover::{Engine, LogBatch, MemoryFiles, Options};
///
/// let engine = Engine::with_files(MemoryFiles::new(), Options::new())?;
/// let mut batch = LogBatch::new()?;
/// batch.add_entries(7, 10, &["one", "two", "three"])?;
/// engine.write(&mut batch, false)?;
///
/// let mut entries = engine.entries(7, 11..)?;
/// assert_eq!((entries.len(), entries.index()), (2, Some(11)));
/// assert_eq!(entries.next().unwrap(), b"two");
/// assert_eq!(entries.next().unwrap(), b"three");
/// assert_eq!((entries.next(), entries.index()), (None, None));
/// # Ok::<(), raft_recover::Error>(())
/// ```
///
/// Each item is a copy of the entry's bytes; [`Entries::iter`] lends them.
#[derive(Clone, Default)]
pub struct Entries {
    /// The entry bytes of the blocks that have the entries.
    blocks: Vec<Arc<Vec<u8>>>,
    /// The entries that are left.
    rest: vec::IntoIter<EntryPlace>,
}

/// An entry, and where its bytes are among those of [`Entries`].
#[derive(Clone)]
struct EntryPlace {
    index: u64,
    /// The position of its block.
    block: usize,
    /// Where its bytes are in that block.
    bytes: Range<usize>,
}

impl Entries {
    /// Reads the bytes of a region's entries. A block that neighboring entries share is read once, and the last block is kept for
    /// the next reading.
    ///
    /// # Errors
    ///
    /// `Corruption` where no sound block with the bytes of an entry is at its place; `Io`: both with the region and the index of
    /// the entry, the file and the offset. `Memory`.
    pub(super) fn read<F: Files>(
        engine: &Engine<F>,
        region: u64,
        entries: &[Entry],
    ) -> Result<Entries> {
        let (mut blocks, mut last) = (Vec::<Arc<Vec<u8>>>::new(), None);
        let mut places = Vec::new();
        places
            .try_reserve_exact(entries.len())
            .map_err(|_| Error::memory())?;
        for entry in entries {
            let with_entry = |e: Error| e.with_entry(region, entry.index);
            if last != Some(entry.block) {
                blocks.push(get_or_read_entry_bytes(engine, entry.block).map_err(with_entry)?);
                last = Some(entry.block);
            }
            let block = blocks.len() - 1;
            let bytes = range_in_block(entry, blocks[block].len())
                .ok_or_else(|| lacking_bytes_error(entry))
                .map_err(with_entry)?;
            let index = entry.index;
            places.push(EntryPlace {
                index,
                block,
                bytes,
            });
        }
        if let Some((block, bytes)) = last.zip(blocks.last()) {
            engine.kept_blocks.keep(&block, bytes);
        }
        Ok(Entries {
            blocks,
            rest: places.into_iter(),
        })
    }

    /// Returns the index of the entry that `next` will return; `None` where none is left.
    ///
    /// ```
    /// # use raft_recover::{Engine, LogBatch, MemoryFiles, Options};
    /// # let engine = Engine::with_files(MemoryFiles::new(), Options::new())?;
    /// # let mut batch = LogBatch::new()?;
    /// batch.add_entries(7, 10, &["one", "two", "three"])?;
    /// engine.write(&mut batch, true)?;
    /// let mut entries = engine.entries(7, 11..)?;
    /// assert_eq!(entries.index(), Some(11));
    /// entries.next();
    /// assert_eq!(entries.index(), Some(12));
    /// # Ok::<(), raft_recover::Error>(())
    /// ```
    #[must_use]
    pub fn index(&self) -> Option<u64> {
        self.rest.as_slice().first().map(|place| place.index)
    }

    /// Lends the entries that are left, each as its index and its bytes, forwards or backwards. No byte is copied, and the
    /// entries stay.
    ///
    /// ```
    /// # use raft_recover::{Engine, LogBatch, MemoryFiles, Options};
    /// # let engine = Engine::with_files(MemoryFiles::new(), Options::new())?;
    /// # let mut batch = LogBatch::new()?;
    /// batch.add_entries(7, 10, &["one", "two", "three"])?;
    /// engine.write(&mut batch, true)?;
    /// let entries = engine.entries(7, ..)?;
    /// let shortest = entries.iter().rev().min_by_key(|(_, bytes)| bytes.len());
    /// assert_eq!(shortest, Some((11, &b"two"[..])));
    /// assert_eq!(entries.len(), 3); // none was taken
    /// # Ok::<(), raft_recover::Error>(())
    /// ```
    pub fn iter(
        &self,
    ) -> impl DoubleEndedIterator<Item = (u64, &[u8])> + ExactSizeIterator + FusedIterator + Clone
    {
        let places = self.rest.as_slice().iter();
        places.map(|place| (place.index, self.bytes_at(place)))
    }

    /// Returns the bytes of the entry that `place` describes.
    fn bytes_at(&self, place: &EntryPlace) -> &[u8] {
        &self.blocks[place.block][place.bytes.clone()]
    }
}

impl Iterator for Entries {
    type Item = Vec<u8>;

    /// Returns a copy of the bytes of the first entry that is left; `None` where none is.
    fn next(&mut self) -> Option<Vec<u8>> {
        let place = self.rest.next()?;
        Some(self.bytes_at(&place).to_vec())
    }

    /// Returns how many entries are left, exactly.
    fn size_hint(&self) -> (usize, Option<usize>) {
        self.rest.size_hint()
    }
}

impl DoubleEndedIterator for Entries {
    /// Returns a copy of the bytes of the last entry that is left; `None` where none is.
    fn next_back(&mut self) -> Option<Vec<u8>> {
        let place = self.rest.next_back()?;
        Some(self.bytes_at(&place).to_vec())
    }
}

impl ExactSizeIterator for Entries {}

impl FusedIterator for Entries {}

impl fmt::Debug for Entries {
    /// Shows how many entries are left, and the index of the next one.
    fn fmt(&self, f: &mut fmt::Formatter<'_>) -> fmt::Result {
        f.debug_struct("Entries")
            .field("len", &self.len())
            .field("index", &self.index())
            .finish_non_exhaustive()
    }
}

/// The bytes of one entry, with those of all of its block.
pub(super) struct EntryBytes {
    /// The entry bytes of the block.
    block: Arc<Vec<u8>>,
    /// Where those of the entry are.
    bytes: Range<usize>,
}

impl EntryBytes {
    /// Returns the bytes of an entry from the kept block that has them; `None` where its block isn't kept, or ends before
    /// them.
    pub(super) fn from_kept_block<F: Files>(
        engine: &Engine<F>,
        entry: &Entry,
    ) -> Option<EntryBytes> {
        let block = engine.kept_blocks.get(&entry.block)?;
        let bytes = range_in_block(entry, block.len())?;
        Some(EntryBytes { block, bytes })
    }

    /// Reads the bytes of an entry of `region`, with its whole block, from the file, and keeps the block for the next reading.
    /// Whether the block is kept already isn't looked up.
    ///
    /// # Errors
    ///
    /// Those of [`Entries::read`].
    pub(super) fn read<F: Files>(
        engine: &Engine<F>,
        region: u64,
        entry: &Entry,
    ) -> Result<EntryBytes> {
        let with_entry = |e: Error| e.with_entry(region, entry.index);
        let block = Arc::new(read_entry_bytes(engine, entry.block).map_err(with_entry)?);
        engine.kept_blocks.keep(&entry.block, &block);
        let bytes = range_in_block(entry, block.len())
            .ok_or_else(|| lacking_bytes_error(entry))
            .map_err(with_entry)?;
        Ok(EntryBytes { block, bytes })
    }

    /// Returns the bytes of the entry.
    #[inline]
    pub(super) fn as_slice(&self) -> &[u8] {
        &self.block[self.bytes.clone()]
    }
}

/// Allocates `len` bytes of zero, and returns them. The only error is `Memory`.
pub(super) fn allocate_zeros(len: usize) -> Result<Vec<u8>> {
    let mut bytes = Vec::new();
    bytes.try_reserve_exact(len).map_err(|_| Error::memory())?;
    bytes.resize(len, 0);
    Ok(bytes)
}

/// Reads the bytes of a block, its checksum with them, which isn't tested. They may be read from memory, if they aren't written
/// yet.
///
/// # Errors
///
/// `Io` with the file and the offset of the block; `Memory`.
pub(super) fn read_block<F: Files>(engine: &Engine<F>, block: Block) -> Result<Vec<u8>> {
    let mut bytes = allocate_zeros(block.len)?;
    if block.len > 0 {
        engine
            .read_at(block.file, block.offset, &mut bytes)
            .map_err(|e| {
                Error::io("the block can't be read", e).with_place(block.file, block.offset)
            })?;
    }
    Ok(bytes)
}

/// Returns the entry bytes of a block: the kept ones, or those that it reads.
///
/// # Errors
///
/// Those of [`read_entry_bytes`].
fn get_or_read_entry_bytes<F: Files>(engine: &Engine<F>, block: Block) -> Result<Arc<Vec<u8>>> {
    match engine.kept_blocks.get(&block) {
        Some(kept) => Ok(kept),
        None => Ok(Arc::new(read_entry_bytes(engine, block)?)),
    }
}

/// Reads the entry bytes of a block, and tests their checksum, which isn't among them. A block of no bytes has no checksum.
///
/// # Errors
///
/// `Io`, or `Corruption` where the checksum is another one, with the file and the offset of the block; `Memory`.
pub(super) fn read_entry_bytes<F: Files>(engine: &Engine<F>, block: Block) -> Result<Vec<u8>> {
    let mut bytes = read_block(engine, block)?;
    if block.len > 0 {
        let len = check_entry_block(&bytes).map_err(|e| e.with_place(block.file, block.offset))?;
        bytes.truncate(len);
    }
    Ok(bytes)
}

/// Returns the range in which the bytes of an entry are among the `len` entry bytes of its block; `None` where it would end
/// behind these.
fn range_in_block(entry: &Entry, len: usize) -> Option<Range<usize>> {
    let from = entry.offset as usize;
    let end = from.saturating_add(entry.len as usize);
    (end <= len).then_some(from..end)
}

/// Makes the error for an entry whose bytes would end behind those of its block.
#[cold]
fn lacking_bytes_error(entry: &Entry) -> Error {
    let Block { file, offset, .. } = entry.block;
    let text = "the bytes of an entry end behind those of its block";
    Error::corruption(file, offset, text)
}
