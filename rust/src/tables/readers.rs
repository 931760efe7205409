//! Reads tables.

use crate::{Entry, LogBatch, Pair, Queue, Result, Summary, Tables};
use std::ops::Range;

impl Tables {
    /// Returns how many records are live in a queue: entries and key values that the tables have there.
    ///
    /// ```
    /// # use raft_recover::{FileId, Queue, Tables};
    /// # let mut tables = Tables::new()?;
    /// tables.put(7, b"key", b"value", FileId::new(Queue::Append, 9))?;
    /// assert_eq!((tables.live(Queue::Append), tables.live(Queue::Rewrite)), (1, 0));
    /// # Ok::<(), raft_recover::Error>(())
    /// ```
    #[must_use]
    pub fn live(&self, queue: Queue) -> usize {
        self.handle.count_live(queue)
    }

    /// Returns the numbers of the regions that have a table, in rising order.
    ///
    /// ```
    /// # use raft_recover::{FileId, Queue, Tables};
    /// # let mut tables = Tables::new()?;
    /// tables.put(7, b"key", b"value", FileId::new(Queue::Append, 9))?;
    /// assert_eq!(tables.regions()?, [7]);
    /// # Ok::<(), raft_recover::Error>(())
    /// ```
    ///
    /// # Errors
    ///
    /// `Memory`.
    pub fn regions(&self) -> Result<Vec<u64>> {
        self.handle.regions()
    }

    /// Returns the list of cleaned regions, in the order in which they were cleaned. A region may be in it several times.
    ///
    /// ```
    /// # use raft_recover::Tables;
    /// # let mut tables = Tables::new()?;
    /// tables.remove(7, true)?;
    /// assert_eq!(tables.cleaned(), [7]);
    /// # Ok::<(), raft_recover::Error>(())
    /// ```
    #[must_use]
    pub fn cleaned(&self) -> Vec<u64> {
        self.handle.cleaned()
    }

    /// Returns how many records the table of a region has, and which files it needs; `None` where the region has no table.
    ///
    /// ```
    /// # use raft_recover::{FileId, Queue, Tables};
    /// # let mut tables = Tables::new()?;
    /// tables.put(7, b"key", b"value", FileId::new(Queue::Append, 9))?;
    /// let summary = tables.summary(7).unwrap();
    /// assert_eq!((summary.keys, summary.append_seq), (1, Some(9)));
    /// assert_eq!(tables.summary(8), None);
    /// # Ok::<(), raft_recover::Error>(())
    /// ```
    #[must_use]
    pub fn summary(&self, region: u64) -> Option<Summary> {
        self.handle.summary(region)
    }

    /// Returns the entry of a region at an index, with its place; `None` where the region has no entry there.
    ///
    /// ```
    /// # use raft_recover::{Block, Entry, FileId, Queue, Tables};
    /// # let block = |queue, seq| Block { file: FileId::new(queue, seq), offset: 16, len: 34 };
    /// # let place = |queue, seq, index| Entry { index, block: block(queue, seq), offset: 0, len: 10 };
    /// # let mut tables = Tables::new()?;
    /// let run = [1, 2, 3].map(|index| place(Queue::Append, 9, index));
    /// tables.append(7, &run)?;
    /// assert_eq!(tables.entry(7, 2), Some(run[1]));
    /// assert_eq!(tables.entry(7, 4), None);
    /// # Ok::<(), raft_recover::Error>(())
    /// ```
    #[must_use]
    pub fn entry(&self, region: u64, index: u64) -> Option<Entry> {
        self.handle.entry(region, index)
    }

    /// Returns the entries of a range of a region's indexes with their places, in order. With a `max_size` these are the first
    /// ones, as many as have at most so many bytes together; the first one that has bytes is returned whatever its size. A region
    /// without a table has no entries.
    ///
    /// ```
    /// # use raft_recover::{Block, Entry, FileId, Queue, Tables};
    /// # let block = |queue, seq| Block { file: FileId::new(queue, seq), offset: 16, len: 34 };
    /// # let place = |queue, seq, index| Entry { index, block: block(queue, seq), offset: 0, len: 10 };
    /// # let mut tables = Tables::new()?;
    /// let run = [1, 2, 3].map(|index| place(Queue::Append, 9, index));
    /// tables.append(7, &run)?;
    /// assert_eq!(tables.entries(7, 2..4, None)?, run[1..]);
    /// assert_eq!(tables.entries(7, 1..4, Some(25))?, run[..2]); // the third one would pass 25 bytes
    /// assert!(tables.entries(7, 1..5, None).is_err());
    /// # Ok::<(), raft_recover::Error>(())
    /// ```
    ///
    /// # Errors
    ///
    /// Where the range isn't empty: `EntryCompacted` where it begins below the region's first entry; `EntryNotFound` where it
    /// ends behind the last one, or the region has none. Else `Memory` alone.
    pub fn entries(
        &self,
        region: u64,
        range: Range<u64>,
        max_size: Option<u64>,
    ) -> Result<Vec<Entry>> {
        self.handle.entries(region, range, max_size)
    }

    /// Returns the appended entries of a region, from the first one on, as long as their file is numbered at or below `gate`.
    /// None where the region has no table.
    ///
    /// ```
    /// # use raft_recover::{Block, Entry, FileId, Queue, Tables};
    /// # let block = |queue, seq| Block { file: FileId::new(queue, seq), offset: 16, len: 34 };
    /// # let place = |queue, seq, index| Entry { index, block: block(queue, seq), offset: 0, len: 10 };
    /// # let mut tables = Tables::new()?;
    /// let run = [1, 2, 3].map(|index| place(Queue::Append, 9, index));
    /// tables.append(7, &run)?;
    /// assert_eq!(tables.entries_before(7, 8)?, []);
    /// assert_eq!(tables.entries_before(7, 9)?, run);
    /// # Ok::<(), raft_recover::Error>(())
    /// ```
    ///
    /// # Errors
    ///
    /// `Memory`.
    pub fn entries_before(&self, region: u64, gate: u64) -> Result<Vec<Entry>> {
        self.handle.entries_before(region, gate)
    }

    /// Returns the entries of a region that are in rewrite files, in order. They are its first ones.
    ///
    /// ```
    /// # use raft_recover::{Block, Entry, FileId, Queue, Tables};
    /// # let block = |queue, seq| Block { file: FileId::new(queue, seq), offset: 16, len: 34 };
    /// # let place = |queue, seq, index| Entry { index, block: block(queue, seq), offset: 0, len: 10 };
    /// # let mut tables = Tables::new()?;
    /// let run = [1, 2, 3].map(|index| place(Queue::Append, 9, index));
    /// tables.append(7, &run)?;
    /// let moved = [1, 2].map(|index| place(Queue::Rewrite, 2, index));
    /// tables.rewrite(7, &moved, Some(9))?;
    /// assert_eq!(tables.rewritten_entries(7)?, moved);
    /// # Ok::<(), raft_recover::Error>(())
    /// ```
    ///
    /// # Errors
    ///
    /// `Memory`.
    pub fn rewritten_entries(&self, region: u64) -> Result<Vec<Entry>> {
        self.handle.rewritten_entries(region)
    }

    /// Returns a copy of the value of a region's key; `None` where the key has no value.
    ///
    /// ```
    /// # use raft_recover::{FileId, Queue, Tables};
    /// # let mut tables = Tables::new()?;
    /// tables.put(7, b"key", b"value", FileId::new(Queue::Append, 9))?;
    /// assert_eq!(tables.value(7, b"key").unwrap(), b"value");
    /// assert_eq!(tables.value(7, b"another"), None);
    /// # Ok::<(), raft_recover::Error>(())
    /// ```
    #[must_use]
    pub fn value(&self, region: u64, key: &[u8]) -> Option<Vec<u8>> {
        self.handle.value(region, key)
    }

    /// Returns the keys of a region that are in append files numbered at or below `gate`, with their values, in the order of the
    /// keys.
    ///
    /// ```
    /// # use raft_recover::{FileId, Queue, Tables};
    /// # let mut tables = Tables::new()?;
    /// tables.put(7, b"key", b"value", FileId::new(Queue::Append, 9))?;
    /// assert_eq!(tables.pairs_before(7, 8)?.len(), 0);
    /// assert_eq!(tables.pairs_before(7, 9)?.len(), 1);
    /// # Ok::<(), raft_recover::Error>(())
    /// ```
    ///
    /// # Errors
    ///
    /// `Memory`.
    pub fn pairs_before(&self, region: u64, gate: u64) -> Result<Vec<Pair>> {
        self.handle.pairs_before(region, gate)
    }

    /// Returns the keys of a region that are in rewrite files, with their values, in the order of the keys.
    ///
    /// ```
    /// # use raft_recover::{FileId, Queue, Tables};
    /// # let mut tables = Tables::new()?;
    /// tables.put(7, b"key", b"value", FileId::new(Queue::Append, 9))?;
    /// tables.rewrite_key(7, b"key", Some(9), 2)?;
    /// assert_eq!(tables.rewritten_pairs(7)?[0].value, b"value");
    /// # Ok::<(), raft_recover::Error>(())
    /// ```
    ///
    /// # Errors
    ///
    /// `Memory`.
    pub fn rewritten_pairs(&self, region: u64) -> Result<Vec<Pair>> {
        self.handle.rewritten_pairs(region)
    }

    /// Returns all keys of a region with their values, in the order of the keys.
    ///
    /// ```
    /// # use raft_recover::{FileId, Queue, Tables};
    /// # let mut tables = Tables::new()?;
    /// tables.put(7, b"key", b"value", FileId::new(Queue::Append, 9))?;
    /// for pair in tables.pairs(7)? {
    ///     assert_eq!((pair.key, pair.value), (b"key".to_vec(), b"value".to_vec()));
    /// }
    /// # Ok::<(), raft_recover::Error>(())
    /// ```
    ///
    /// # Errors
    ///
    /// `Memory`.
    pub fn pairs(&self, region: u64) -> Result<Vec<Pair>> {
        self.handle.pairs(region)
    }

    /// Checks that [`Tables::apply_append`] would accept the items of a batch, once the batch is written to the append queue.
    /// Nothing is changed, and the batch may be at any stage.
    ///
    /// ```
    /// # use raft_recover::{Block, Entry, FileId, LogBatch, Queue, Tables};
    /// # let block = |queue, seq| Block { file: FileId::new(queue, seq), offset: 16, len: 34 };
    /// # let place = |queue, seq, index| Entry { index, block: block(queue, seq), offset: 0, len: 10 };
    /// # let mut tables = Tables::new()?;
    /// let run = [1, 2, 3].map(|index| place(Queue::Append, 9, index));
    /// tables.append(7, &run)?;
    /// let mut batch = LogBatch::new()?;
    /// batch.add_entries(7, 4, &["the next one"])?;
    /// tables.check_append(&batch)?;
    /// batch.add_entries(7, 9, &["behind a hole"])?;
    /// tables.check_append(&batch).unwrap_err();
    /// # Ok::<(), raft_recover::Error>(())
    /// ```
    ///
    /// # Errors
    ///
    /// `Corruption` where an item would be refused: the error has the item, the region and the index. `Memory`.
    pub fn check_append(&self, batch: &LogBatch) -> Result<()> {
        let checked = self.handle.check_append(batch.handle());
        checked.map_err(|e| batch.name_refused_item(e, |_| true, |region| self.summary(region)))
    }
}
