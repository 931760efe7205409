//! Reads an engine: entries, key values, and what regions have.

use super::entries::EntryBytes;
use super::{Engine, Entries, Pairs, pairs};
use crate::sys::EngineHandle;
use crate::{Entry, Error, ErrorKind, Files, Result, Summary};
use std::ops::{Bound, Range, RangeBounds};

/// How often a reader looks up the places of entries and reads them, before it waits for a turn.
const LOOK_UPS: usize = 4;

impl<F: Files> Engine<F> {
    /// Returns a copy of the bytes of a region's entry at an index; `None` where the region has no entry there.
    ///
    /// ```
    /// # use raft_recover::{Engine, LogBatch, MemoryFiles, Options};
    /// # let engine = Engine::with_files(MemoryFiles::new(), Options::new())?;
    /// # let mut batch = LogBatch::new()?;
    /// batch.add_entries(7, 10, &["one", "two", "three"])?;
    /// engine.write(&mut batch, true)?;
    /// assert_eq!(engine.entry(7, 11)?.unwrap(), b"two");
    /// assert_eq!(engine.entry(7, 13)?, None);
    /// # Ok::<(), raft_recover::Error>(())
    /// ```
    ///
    /// # Errors
    ///
    /// `Corruption` where the bytes were damaged since they were written; `Io` where they can't be read: both with the region,
    /// the index, the file and the offset of the entry's block. `Memory`; `Failed` where the engine can't be read.
    pub fn entry(&self, region: u64, index: u64) -> Result<Option<Vec<u8>>> {
        self.entry_with(region, index, <[u8]>::to_vec)
    }

    /// Lends the bytes of a region's entry at an index to `call`, and returns what `call` returns; `None`, without a call, where
    /// the region has no entry there. The bytes aren't copied.
    ///
    /// ```
    /// # use raft_recover::{Engine, LogBatch, MemoryFiles, Options};
    /// # let engine = Engine::with_files(MemoryFiles::new(), Options::new())?;
    /// # let mut batch = LogBatch::new()?;
    /// batch.add_entries(7, 10, &["one", "two", "three"])?;
    /// engine.write(&mut batch, true)?;
    /// assert_eq!(engine.entry_with(7, 12, |bytes| bytes.len())?, Some(5));
    /// assert_eq!(engine.entry_with(7, 13, |bytes| bytes.len())?, None);
    /// # Ok::<(), raft_recover::Error>(())
    /// ```
    ///
    /// # Errors
    ///
    /// Those of [`Engine::entry`].
    pub fn entry_with<T>(
        &self,
        region: u64,
        index: u64,
        call: impl FnOnce(&[u8]) -> T,
    ) -> Result<Option<T>> {
        self.check_readable()?;
        let found = self.lock_tables().entry(region, index);
        let kept = found.and_then(|entry| EntryBytes::from_kept_block(self, &entry));
        if let Some(kept) = kept {
            return Ok(Some(call(kept.as_slice())));
        }
        let read = self.read_places(
            found,
            |tables| Ok(tables.entry(region, index)),
            |found| {
                let read = found.map(|entry| EntryBytes::read(self, region, &entry));
                read.transpose()
            },
        )?;
        Ok(read.map(|entry| call(entry.as_slice())))
    }

    /// Lends the entries of a range of indexes to `call`, one after another, each as its index and its bytes. All of them are
    /// read before the first call, and none is copied. [`Entries::iter`] lends them too, and can end early or go backwards.
    ///
    /// ```
    /// # use raft_recover::{Engine, LogBatch, MemoryFiles, Options};
    /// # let engine = Engine::with_files(MemoryFiles::new(), Options::new())?;
    /// # let mut batch = LogBatch::new()?;
    /// batch.add_entries(7, 10, &["one", "two", "three"])?;
    /// engine.write(&mut batch, true)?;
    /// let mut sum = 0;
    /// engine.for_each_entry(7, 11.., |index, bytes| sum += index as usize * bytes.len())?;
    /// assert_eq!(sum, 11 * 3 + 12 * 5);
    /// # Ok::<(), raft_recover::Error>(())
    /// ```
    ///
    /// # Errors
    ///
    /// Those of [`Engine::entries`]. Nothing was lent then.
    pub fn for_each_entry(
        &self,
        region: u64,
        range: impl RangeBounds<u64>,
        mut call: impl FnMut(u64, &[u8]),
    ) -> Result<()> {
        let entries = self.entries(region, range)?;
        entries.iter().for_each(|(index, bytes)| call(index, bytes));
        Ok(())
    }

    /// Reads and returns the entries of a range of a region's indexes. A bound that is left out is that of the region's entries,
    /// so `..` is all of them.
    ///
    /// ```
    /// # use raft_recover::{Engine, LogBatch, MemoryFiles, Options};
    /// # let engine = Engine::with_files(MemoryFiles::new(), Options::new())?;
    /// # let mut batch = LogBatch::new()?;
    /// batch.add_entries(7, 10, &["one", "two", "three"])?;
    /// engine.write(&mut batch, true)?;
    /// assert_eq!(engine.entries(7, ..)?.len(), 3);
    /// assert_eq!(engine.entries(7, 11..=12)?.index(), Some(11));
    /// assert!(engine.entries(7, 11..14).is_err());
    /// # Ok::<(), raft_recover::Error>(())
    /// ```
    ///
    /// # Errors
    ///
    /// Where the range isn't empty:
    ///
    /// - `EntryCompacted` where it begins below the region's first entry; the error has the index where it begins.
    /// - `EntryNotFound` where it ends behind the region's last entry, or the region has none; the error has the last index of
    ///   the range.
    /// - `Corruption` and `Io`, as [`Engine::entry`] has them; `Memory`.
    ///
    /// `Failed` where the engine can't be read.
    pub fn entries(&self, region: u64, range: impl RangeBounds<u64>) -> Result<Entries> {
        self.find_and_read(
            |tables| entries_in_range(tables, region, &range, None),
            |found| Entries::read(self, region, found),
        )
    }

    /// Reads and returns the first entries of a range of a region's indexes, as many as have at most `max_size` bytes together.
    /// The first one that has bytes is returned whatever its size. A bound that is left out is that of the region's entries.
    ///
    /// ```
    /// # use raft_recover::{Engine, LogBatch, MemoryFiles, Options};
    /// # let engine = Engine::with_files(MemoryFiles::new(), Options::new())?;
    /// # let mut batch = LogBatch::new()?;
    /// batch.add_entries(7, 10, &["one", "two", "three"])?;
    /// engine.write(&mut batch, true)?;
    /// let entries = engine.entries_up_to(7, 10.., 6)?;
    /// assert_eq!(entries.collect::<Vec<_>>(), [b"one", b"two"]);
    /// # Ok::<(), raft_recover::Error>(())
    /// ```
    ///
    /// # Errors
    ///
    /// Those of [`Engine::entries`].
    pub fn entries_up_to(
        &self,
        region: u64,
        range: impl RangeBounds<u64>,
        max_size: u64,
    ) -> Result<Entries> {
        self.find_and_read(
            |tables| entries_in_range(tables, region, &range, Some(max_size)),
            |found| Entries::read(self, region, found),
        )
    }

    /// Returns a copy of the value of a region's key; `None` where the key has no value.
    ///
    /// ```
    /// # use raft_recover::{Engine, LogBatch, MemoryFiles, Options};
    /// # let engine = Engine::with_files(MemoryFiles::new(), Options::new())?;
    /// # let mut batch = LogBatch::new()?;
    /// batch.add_entries(7, 10, &["one", "two", "three"])?;
    /// batch.put(7, b"key", b"value")?;
    /// engine.write(&mut batch, true)?;
    /// assert_eq!(engine.get(7, b"key")?.unwrap(), b"value");
    /// assert_eq!(engine.get(8, b"key")?, None);
    /// # Ok::<(), raft_recover::Error>(())
    /// ```
    ///
    /// # Errors
    ///
    /// `Memory`; `Failed` where the engine can't be read.
    pub fn get(&self, region: u64, key: &[u8]) -> Result<Option<Vec<u8>>> {
        self.look_up(|tables| tables.value(region, key))
    }

    /// Returns copies of the keys of a region that are in a range, with their values, in the order of the keys. Keys are compared
    /// byte by byte. A region without a table has none.
    ///
    /// ```
    /// # use raft_recover::{Engine, LogBatch, MemoryFiles, Options};
    /// # let engine = Engine::with_files(MemoryFiles::new(), Options::new())?;
    /// # let mut batch = LogBatch::new()?;
    /// batch.add_entries(7, 10, &["one", "two", "three"])?;
    /// batch.put(7, b"key", b"value")?;
    /// engine.write(&mut batch, true)?;
    /// let mut pairs = engine.scan(7, &b"a"[..]..)?;
    /// assert_eq!(pairs.next(), Some((b"key".to_vec(), b"value".to_vec())));
    /// assert_eq!(engine.scan(7, &b"l"[..]..)?.next(), None);
    /// # Ok::<(), raft_recover::Error>(())
    /// ```
    ///
    /// # Errors
    ///
    /// `Memory`; `Failed` where the engine can't be read.
    pub fn scan<'a>(&self, region: u64, range: impl RangeBounds<&'a [u8]>) -> Result<Pairs> {
        let (start, end) = pairs::key_bounds(&range);
        let found = self.look_up(|tables| tables.scan(region, &start, end.as_deref()))?;
        Pairs::from_packed(found)
    }

    /// Returns the least index of a region's entries; `None` where it has no entries.
    ///
    /// ```
    /// # use raft_recover::{Engine, LogBatch, MemoryFiles, Options};
    /// # let engine = Engine::with_files(MemoryFiles::new(), Options::new())?;
    /// # let mut batch = LogBatch::new()?;
    /// batch.add_entries(7, 10, &["one", "two", "three"])?;
    /// engine.write(&mut batch, true)?;
    /// assert_eq!((engine.first_index(7)?, engine.first_index(8)?), (Some(10), None));
    /// # Ok::<(), raft_recover::Error>(())
    /// ```
    ///
    /// # Errors
    ///
    /// `Failed` where the engine can't be read.
    pub fn first_index(&self, region: u64) -> Result<Option<u64>> {
        self.look_up(|tables| Ok(tables.first_index(region)))
    }

    /// Returns the greatest index of a region's entries; `None` where it has no entries.
    ///
    /// ```
    /// # use raft_recover::{Engine, LogBatch, MemoryFiles, Options};
    /// # let engine = Engine::with_files(MemoryFiles::new(), Options::new())?;
    /// # let mut batch = LogBatch::new()?;
    /// batch.add_entries(7, 10, &["one", "two", "three"])?;
    /// engine.write(&mut batch, true)?;
    /// assert_eq!((engine.last_index(7)?, engine.last_index(8)?), (Some(12), None));
    /// # Ok::<(), raft_recover::Error>(())
    /// ```
    ///
    /// # Errors
    ///
    /// `Failed` where the engine can't be read.
    pub fn last_index(&self, region: u64) -> Result<Option<u64>> {
        self.look_up(|tables| Ok(tables.last_index(region)))
    }

    /// Returns how many records the table of a region has, and which files it needs; `None` where the region has no table.
    ///
    /// ```
    /// # use raft_recover::{Engine, LogBatch, MemoryFiles, Options};
    /// # let engine = Engine::with_files(MemoryFiles::new(), Options::new())?;
    /// # let mut batch = LogBatch::new()?;
    /// batch.add_entries(7, 10, &["one", "two", "three"])?;
    /// batch.put(7, b"key", b"value")?;
    /// engine.write(&mut batch, true)?;
    /// let summary = engine.summary(7)?.unwrap();
    /// assert_eq!((summary.entries, summary.keys), (3, 1));
    /// # Ok::<(), raft_recover::Error>(())
    /// ```
    ///
    /// # Errors
    ///
    /// `Failed` where the engine can't be read.
    pub fn summary(&self, region: u64) -> Result<Option<Summary>> {
        self.look_up(|tables| Ok(tables.summary(region)))
    }

    /// Returns the numbers of all regions that have a table, in rising order.
    ///
    /// ```
    /// # use raft_recover::{Engine, LogBatch, MemoryFiles, Options};
    /// # let engine = Engine::with_files(MemoryFiles::new(), Options::new())?;
    /// # let mut batch = LogBatch::new()?;
    /// batch.add_entries(7, 10, &["one", "two", "three"])?;
    /// engine.write(&mut batch, true)?;
    /// assert_eq!(engine.regions()?, [7]);
    /// # Ok::<(), raft_recover::Error>(())
    /// ```
    ///
    /// # Errors
    ///
    /// `Memory`; `Failed` where the engine can't be read.
    pub fn regions(&self) -> Result<Vec<u64>> {
        self.look_up(EngineHandle::regions)
    }

    /// Looks up places by `find`, reads there by `read`, and returns what `read` returns. Records may move between the two, so
    /// that the read fails. Then both are repeated, the last time in a turn, in which nothing moves.
    ///
    /// # Errors
    ///
    /// `Failed` where the engine can't be read; those of `find`; those of `read` in that turn.
    fn find_and_read<P: PartialEq, T>(
        &self,
        find: impl Fn(&mut EngineHandle) -> Result<P>,
        read: impl Fn(&P) -> Result<T>,
    ) -> Result<T> {
        self.read_places(self.look_up(&find)?, find, read)
    }

    /// Reads at the places `found`, which `find` has looked up, by `read`, and returns what `read` returns. Records may move
    /// between the two, so that the read fails. Then both are repeated, the last time in a turn, in which nothing moves.
    ///
    /// # Errors
    ///
    /// Those of [`Engine::find_and_read`].
    fn read_places<P: PartialEq, T>(
        &self,
        mut found: P,
        find: impl Fn(&mut EngineHandle) -> Result<P>,
        read: impl Fn(&P) -> Result<T>,
    ) -> Result<T> {
        for _ in 0..LOOK_UPS {
            if let Ok(answer) = read(&found) {
                return Ok(answer);
            }
            let again = self.look_up(&find)?;
            if again == found {
                break; // it hasn't moved
            }
            found = again;
        }
        let _turn = self.turns.take_turn();
        read(&self.look_up(&find)?)
    }

    /// Locks the tables, makes `call`, which reads them, and returns what it returns.
    ///
    /// # Errors
    ///
    /// `Failed` where the engine can't be read; those of `call`.
    fn look_up<T>(&self, call: impl FnOnce(&mut EngineHandle) -> Result<T>) -> Result<T> {
        self.check_readable()?;
        call(&mut self.lock_tables())
    }
}

/// Returns the entries of a range of a region's indexes with their places, in order. With a `max_size` these are the first ones,
/// as many as have at most so many bytes together; the first one that has bytes is returned whatever its size. None for an empty
/// range.
///
/// # Errors
///
/// `EntryCompacted` or `EntryNotFound` where the region doesn't have all of the range, with the index that is missing; `Memory`.
pub(super) fn entries_in_range(
    tables: &mut EngineHandle,
    region: u64,
    range: &impl RangeBounds<u64>,
    max_size: Option<u64>,
) -> Result<Vec<Entry>> {
    match resolve_range(tables, region, range) {
        Some(range) => tables
            .entries(region, range.clone(), max_size)
            .map_err(|e| with_missing_entry(e, region, &range)),
        None => Ok(Vec::new()),
    }
}

/// Adds to `refused`, the error for `range`, the region and the index that is missing, in its text too, and returns it: the
/// first index of the range where that was compacted, the last one where it isn't there yet. An error of another kind is
/// returned as it is.
fn with_missing_entry(refused: Error, region: u64, range: &Range<u64>) -> Error {
    let index = match refused.kind {
        ErrorKind::EntryCompacted => range.start,
        ErrorKind::EntryNotFound => range.end - 1,
        _ => return refused,
    };
    let mut refused = refused.with_region(region, Some(index));
    refused.text += &format!(": region {region}, index {index}");
    refused
}

/// Returns the indexes of `range` as `start..end`. A bound that is missing is that of the region's entries. `None` if the range
/// is empty, or if a bound is missing and the region has no entries. Whether the region has all of these entries isn't tested.
fn resolve_range(
    tables: &mut EngineHandle,
    region: u64,
    range: &impl RangeBounds<u64>,
) -> Option<Range<u64>> {
    let start = match range.start_bound() {
        Bound::Included(start) => *start,
        Bound::Excluded(before) => before.saturating_add(1),
        Bound::Unbounded => tables.first_index(region)?,
    };
    let end = match range.end_bound() {
        Bound::Included(last) => last.saturating_add(1),
        Bound::Excluded(end) => *end,
        Bound::Unbounded => tables.last_index(region)? + 1,
    };
    (start < end).then_some(start..end)
}
