//! Changes tables.

use crate::{Batch, Entry, Error, FileId, LogBatch, Result, Tables};

impl Tables {
    /// Appends `entries`, which stand in the append queue and have consecutive indexes, to those of a region. The region's
    /// entries from the first new index on are dropped. Without new entries nothing changes.
    ///
    /// ```
    /// # use raft_recover::{Block, Entry, FileId, Queue, Tables};
    /// # let block = |queue, seq| Block { file: FileId::new(queue, seq), offset: 16, len: 34 };
    /// # let place = |queue, seq, index| Entry { index, block: block(queue, seq), offset: 0, len: 10 };
    /// # let mut tables = Tables::new()?;
    /// let run = [1, 2, 3].map(|index| place(Queue::Append, 9, index));
    /// tables.append(7, &run)?;
    /// tables.append(7, &[place(Queue::Append, 9, 2)])?;
    /// assert_eq!(tables.entry(7, 3), None); // the new run ends below
    /// tables.append(7, &[place(Queue::Append, 9, 9)]).unwrap_err(); // a hole
    /// # Ok::<(), raft_recover::Error>(())
    /// ```
    ///
    /// # Errors
    ///
    /// `InvalidArgument` where the indexes don't rise by one, or a place is in the rewrite queue; `Corruption` where the new
    /// entries leave a hole behind those of the region, or begin below all of them; `Full` where more than 2^64 - 1 records would
    /// be live; `Memory`.
    pub fn append(&mut self, region: u64, entries: &[Entry]) -> Result<()> {
        self.handle.append(region, entries)
    }

    /// Drops the entries of a region below an index, and returns how many were dropped.
    ///
    /// ```
    /// # use raft_recover::{Block, Entry, FileId, Queue, Tables};
    /// # let block = |queue, seq| Block { file: FileId::new(queue, seq), offset: 16, len: 34 };
    /// # let place = |queue, seq, index| Entry { index, block: block(queue, seq), offset: 0, len: 10 };
    /// # let mut tables = Tables::new()?;
    /// let run = [1, 2, 3].map(|index| place(Queue::Append, 9, index));
    /// tables.append(7, &run)?;
    /// assert_eq!(tables.compact(7, 3)?, 2);
    /// assert_eq!(tables.summary(7).unwrap().first_index, Some(3));
    /// # Ok::<(), raft_recover::Error>(())
    /// ```
    ///
    /// # Errors
    ///
    /// `Memory`.
    pub fn compact(&mut self, region: u64, index: u64) -> Result<u64> {
        self.handle.compact(region, index)
    }

    /// Drops the entries of a region from an index on, and returns how many were dropped.
    ///
    /// ```
    /// # use raft_recover::{Block, Entry, FileId, Queue, Tables};
    /// # let block = |queue, seq| Block { file: FileId::new(queue, seq), offset: 16, len: 34 };
    /// # let place = |queue, seq, index| Entry { index, block: block(queue, seq), offset: 0, len: 10 };
    /// # let mut tables = Tables::new()?;
    /// let run = [1, 2, 3].map(|index| place(Queue::Append, 9, index));
    /// tables.append(7, &run)?;
    /// assert_eq!(tables.truncate(7, 3)?, 1);
    /// assert_eq!(tables.entry(7, 3), None);
    /// # Ok::<(), raft_recover::Error>(())
    /// ```
    ///
    /// # Errors
    ///
    /// `Memory`.
    pub fn truncate(&mut self, region: u64, index: u64) -> Result<u64> {
        self.handle.truncate(region, index)
    }

    /// Puts `key` with `value` into the table of a region, in place of an older value. Both are copied; `file` is the one to
    /// which they were written.
    ///
    /// ```
    /// # use raft_recover::{FileId, Queue, Tables};
    /// # let mut tables = Tables::new()?;
    /// tables.put(7, b"key", b"value", FileId::new(Queue::Append, 9))?;
    /// assert_eq!(tables.value(7, b"key").unwrap(), b"value");
    /// # Ok::<(), raft_recover::Error>(())
    /// ```
    ///
    /// # Errors
    ///
    /// `Full`, `Memory`.
    pub fn put(&mut self, region: u64, key: &[u8], value: &[u8], file: FileId) -> Result<()> {
        self.handle.put(region, key, value, file)
    }

    /// Deletes a key of a region and its value, if there is one.
    ///
    /// ```
    /// # use raft_recover::{FileId, Queue, Tables};
    /// # let mut tables = Tables::new()?;
    /// tables.put(7, b"key", b"value", FileId::new(Queue::Append, 9))?;
    /// tables.delete(7, b"key")?;
    /// assert_eq!(tables.value(7, b"key"), None);
    /// # Ok::<(), raft_recover::Error>(())
    /// ```
    ///
    /// # Errors
    ///
    /// `Memory`.
    pub fn delete(&mut self, region: u64, key: &[u8]) -> Result<()> {
        self.handle.delete(region, key)
    }

    /// Moves entries of a region to the places in the rewrite queue that `entries` has, as far as they may move: with a `gate`
    /// those in append files numbered at or below it, without one those that are in rewrite files already.
    ///
    /// ```
    /// # use raft_recover::{Block, Entry, FileId, Queue, Tables};
    /// # let block = |queue, seq| Block { file: FileId::new(queue, seq), offset: 16, len: 34 };
    /// # let place = |queue, seq, index| Entry { index, block: block(queue, seq), offset: 0, len: 10 };
    /// # let mut tables = Tables::new()?;
    /// let run = [1, 2, 3].map(|index| place(Queue::Append, 9, index));
    /// tables.append(7, &run)?;
    /// let moved = run.map(|entry| place(Queue::Rewrite, 2, entry.index));
    /// tables.rewrite(7, &moved, Some(8))?; // they are in file 9
    /// assert_eq!(tables.entry(7, 1), Some(run[0]));
    /// tables.rewrite(7, &moved, Some(9))?;
    /// assert_eq!(tables.entry(7, 1), Some(moved[0]));
    /// # Ok::<(), raft_recover::Error>(())
    /// ```
    ///
    /// # Errors
    ///
    /// `InvalidArgument` where the indexes don't rise by one or a place is in the append queue; `Corruption` where the run
    /// doesn't fit the rewritten entries; `Full`, `Memory`.
    pub fn rewrite(&mut self, region: u64, entries: &[Entry], gate: Option<u64>) -> Result<()> {
        self.handle.rewrite(region, entries, gate)
    }

    /// Moves a key of a region with its value to the rewrite file numbered `seq`: from an append file only if there is a `gate`
    /// and the file is numbered at or below it, from a rewrite file always.
    ///
    /// ```
    /// # use raft_recover::{FileId, Queue, Tables};
    /// # let mut tables = Tables::new()?;
    /// tables.put(7, b"key", b"value", FileId::new(Queue::Append, 9))?;
    /// tables.rewrite_key(7, b"key", Some(9), 2)?;
    /// assert_eq!(tables.summary(7).unwrap().rewrite_seq, Some(2));
    /// # Ok::<(), raft_recover::Error>(())
    /// ```
    ///
    /// # Errors
    ///
    /// `Corruption` where the pair is in a rewritten file above `seq`; `Full`, `Memory`.
    pub fn rewrite_key(
        &mut self,
        region: u64,
        key: &[u8],
        gate: Option<u64>,
        seq: u64,
    ) -> Result<()> {
        self.handle.rewrite_key(region, key, gate, seq)
    }

    /// Notes the numbers of the rewrite files in which a region's last atomic group begins and ends, `start` and `end`, once
    /// the end of that group is written.
    ///
    /// ```
    /// # use raft_recover::{FileId, Queue, Tables};
    /// # let mut tables = Tables::new()?;
    /// tables.put(7, b"key", b"value", FileId::new(Queue::Append, 9))?;
    /// tables.rewrite_key(7, b"key", Some(9), 2)?;
    /// tables.set_atomic_group(7, 1, 2)?;
    /// assert_eq!(tables.summary(7).unwrap().rewrite_seq, Some(1));
    /// # Ok::<(), raft_recover::Error>(())
    /// ```
    ///
    /// # Errors
    ///
    /// `InvalidArgument` where `start` is above `end`, `Memory`.
    pub fn set_atomic_group(&mut self, region: u64, start: u64, end: u64) -> Result<()> {
        if start > end {
            return Err(Error::invalid_argument(
                "an atomic group starts behind its end",
            ));
        }
        self.handle.set_atomic_group(region, start, end)
    }

    /// Removes the table of a region, and returns whether there was one. With `is_listed` it lists the region as cleaned, even if
    /// it had no table.
    ///
    /// ```
    /// # use raft_recover::{FileId, Queue, Tables};
    /// # let mut tables = Tables::new()?;
    /// tables.put(7, b"key", b"value", FileId::new(Queue::Append, 9))?;
    /// assert!(tables.remove(7, true)?);
    /// assert!(!tables.remove(7, false)?);
    /// assert_eq!(tables.cleaned(), [7]);
    /// # Ok::<(), raft_recover::Error>(())
    /// ```
    ///
    /// # Errors
    ///
    /// `Memory`, only with `is_listed`.
    pub fn remove(&mut self, region: u64, is_listed: bool) -> Result<bool> {
        self.handle.remove(region, is_listed)
    }

    /// Returns an open batch with a `Clean` for each of the cleaned regions, in order, and empties their list.
    ///
    /// The batch has to be written to the rewrite queue, once the append queue is synced. The same goes for all else that takes
    /// rewritten records away, which isn't listed: compactions, truncations, deletions of keys, and entries that replace others,
    /// as a truncation at their first index.
    ///
    /// ```
    /// # use raft_recover::{Content, Tables};
    /// # let mut tables = Tables::new()?;
    /// tables.remove(7, true)?;
    /// let batch = tables.take_cleaned_logs()?;
    /// assert_eq!(batch.into_items()?.get(0).unwrap().content, Content::Clean);
    /// assert_eq!(tables.cleaned(), []);
    /// # Ok::<(), raft_recover::Error>(())
    /// ```
    ///
    /// # Errors
    ///
    /// `Memory`. The list is as it was then.
    pub fn take_cleaned_logs(&mut self) -> Result<LogBatch> {
        let regions = self.cleaned();
        Ok(LogBatch::from_cleans(
            self.handle.take_cleaned_logs()?,
            &regions,
        ))
    }

    /// Applies the items of a batch of the append queue, in order.
    ///
    /// ```
    /// # use raft_recover::{LogBatch, LogFile, Queue, Tables, Version};
    /// # let mut tables = Tables::new()?;
    /// let file = LogFile::new(Queue::Append, 9, Version::V2);
    /// let mut batch = LogBatch::new()?;
    /// batch.put(7, b"key", b"value")?;
    /// batch.finish()?;
    /// batch.sign(file)?;
    /// batch.written(file.into(), 0)?;
    /// tables.apply_append(batch.into_items()?)?;
    /// assert_eq!(tables.summary(7).unwrap().append_seq, Some(9));
    /// # Ok::<(), raft_recover::Error>(())
    /// ```
    ///
    /// # Errors
    ///
    /// `Corruption`, `Full` or `Memory` at the first item that is refused. The items before it are applied then, and no others.
    pub fn apply_append(&mut self, batch: Batch) -> Result<()> {
        self.handle.apply_append(batch.into_handle())
    }

    /// Applies the items of a batch, in order. The batch was written to the rewrite file numbered `seq`, to move records: `gate`
    /// says which, as for [`Tables::rewrite`].
    ///
    /// ```
    /// # use raft_recover::{FileId, LogBatch, LogFile, Queue, Tables, Version};
    /// # let mut tables = Tables::new()?;
    /// tables.put(7, b"key", b"value", FileId::new(Queue::Append, 9))?;
    /// let file = LogFile::new(Queue::Rewrite, 2, Version::V2);
    /// let mut batch = LogBatch::new()?;
    /// batch.put(7, b"key", b"value")?;
    /// batch.finish()?;
    /// batch.sign(file)?;
    /// batch.written(file.into(), 0)?;
    /// tables.apply_rewrite(batch.into_items()?, Some(9), 2)?;
    /// let summary = tables.summary(7).unwrap();
    /// assert_eq!((summary.append_seq, summary.rewrite_seq), (None, Some(2)));
    /// # Ok::<(), raft_recover::Error>(())
    /// ```
    ///
    /// # Errors
    ///
    /// Those of [`Tables::apply_append`].
    pub fn apply_rewrite(&mut self, batch: Batch, gate: Option<u64>, seq: u64) -> Result<()> {
        self.handle.apply_rewrite(batch.into_handle(), gate, seq)
    }
}
