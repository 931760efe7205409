//! Counts how much of the files is needed.

use super::reading::entries_in_range;
use super::{Engine, locks};
use crate::{Entry, Files, Queue, Result};

/// How many places of entries are looked up under one lock of the tables.
const LOOKED_UP_AT_ONCE: u64 = 1024;

/// How many bytes of the files of both queues are needed, and how many aren't ([`Engine::usage`]).
///
/// ```
/// use raft_recover::{Engine, LogBatch, MemoryFiles, Options};
///
/// let engine = Engine::with_files(MemoryFiles::new(), Options::new())?;
/// let mut batch = LogBatch::new()?;
/// batch.add_entries(7, 1, &["one", "two"])?;
/// batch.put(7, b"key", b"value")?;
/// engine.write(&mut batch, true)?;
/// let usage = engine.usage()?;
/// assert_eq!((usage.append.live, usage.rewrite.live), (14, 0));
/// assert_eq!(usage.append.dead, engine.stats().append.bytes - 14);
/// # Ok::<(), raft_recover::Error>(())
/// ```
#[derive(Clone, Copy, PartialEq, Eq, Hash, Debug, Default)]
#[non_exhaustive]
pub struct Usage {
    /// The append queue.
    pub append: QueueUsage,
    /// The rewrite queue.
    pub rewrite: QueueUsage,
}

/// How many bytes of a queue's files are needed, and how many aren't.
///
/// ```
/// use raft_recover::QueueUsage;
///
/// let usage = QueueUsage { live: 10, dead: 30 };
/// assert_eq!(usage.garbage(), 75);
/// ```
#[derive(Clone, Copy, PartialEq, Eq, Hash, Debug, Default)]
pub struct QueueUsage {
    /// The bytes that are needed: those of the entries, and of the keys with their values, that the tables have there. The keys
    /// of a region that has records in both queues all count for the rewrite queue.
    pub live: u64,
    /// All other bytes: records that were removed or moved, and what surrounds the records in a batch.
    pub dead: u64,
}

impl QueueUsage {
    /// Returns how many of a hundred bytes aren't needed, rounded down; 0 where there are no bytes.
    ///
    /// ```
    /// # use raft_recover::QueueUsage;
    /// assert_eq!(QueueUsage { live: 1, dead: 2 }.garbage(), 66);
    /// assert_eq!(QueueUsage::default().garbage(), 0);
    /// ```
    #[must_use]
    pub fn garbage(&self) -> u8 {
        let [live, dead] = [self.live, self.dead].map(u128::from);
        (dead * 100 / (live + dead).max(1)) as u8
    }
}

impl<F: Files> Engine<F> {
    /// Counts how many bytes of the files are needed, and how many aren't. It looks at each entry and each key, while other
    /// threads may write; [`Engine::stats`] is cheap.
    ///
    /// ```
    /// # use raft_recover::{Engine, LogBatch, MemoryFiles, Options};
    /// # let engine = Engine::with_files(MemoryFiles::new(), Options::new())?;
    /// # let mut batch = LogBatch::new()?;
    /// batch.add_entries(7, 10, &["one", "two", "three"])?;
    /// engine.write(&mut batch, true)?;
    /// let before = engine.usage()?.append;
    /// batch.compact(7, 12)?;
    /// engine.write(&mut batch, true)?;
    /// let after = engine.usage()?.append;
    /// assert_eq!((before.live, after.live), (11, 5));
    /// assert!(after.garbage() > before.garbage());
    /// # Ok::<(), raft_recover::Error>(())
    /// ```
    ///
    /// # Errors
    ///
    /// `Memory`; `Failed` where the engine can't be read.
    pub fn usage(&self) -> Result<Usage> {
        self.check_readable()?;
        let mut live = [0, 0];
        let regions = self.lock_tables().regions()?;
        for region in regions {
            let here = self.count_live_bytes(region)?;
            live = [live[0] + here[0], live[1] + here[1]];
        }
        let numbers = locks::lock(&self.numbers);
        let of = |queue: Queue| {
            let live = live[queue as usize];
            let dead = numbers.count_bytes(queue).saturating_sub(live);
            QueueUsage { live, dead }
        };
        Ok(Usage {
            append: of(Queue::Append),
            rewrite: of(Queue::Rewrite),
        })
    }

    /// Counts the bytes of a region's records in the append files, and in the rewrite files. Its keys with their values all count
    /// for the rewrite files if the region has anything there, else for the append files.
    ///
    /// # Errors
    ///
    /// `Memory`.
    fn count_live_bytes(&self, region: u64) -> Result<[u64; 2]> {
        let mut live = [0, 0];
        self.visit_places(region, |entry| {
            live[entry.block.file.queue as usize] += u64::from(entry.len);
            true
        })?;
        let mut tables = self.lock_tables_after_waiters();
        let summary = tables.summary(region).unwrap_or_default();
        let queue = summary
            .rewrite_seq
            .map_or(Queue::Append, |_| Queue::Rewrite);
        live[queue as usize] += tables.scan(region, b"", None)?.bytes.len() as u64;
        Ok(live)
    }

    /// Counts the bytes of a region's entries in rewrite files, and those of all its keys with their values, any of which may be
    /// there.
    ///
    /// # Errors
    ///
    /// `Memory`.
    pub(super) fn count_rewritten_bytes(&self, region: u64) -> Result<u64> {
        let mut bytes = 0;
        self.visit_places(region, |entry| {
            let is_rewritten = entry.block.file.queue == Queue::Rewrite;
            if is_rewritten {
                bytes += u64::from(entry.len);
            }
            is_rewritten // entries that moved stand before all others
        })?;
        let pairs = self.lock_tables_after_waiters().scan(region, b"", None)?;
        Ok(bytes + pairs.bytes.len() as u64)
    }

    /// Calls `visit` with each entry of a region and its place, in order, as long as `visit` returns true. The tables are locked
    /// for some entries at a time; where the region changes meanwhile, each is visited as it was before or after.
    ///
    /// # Errors
    ///
    /// `Memory`.
    fn visit_places(&self, region: u64, mut visit: impl FnMut(&Entry) -> bool) -> Result<()> {
        let mut from = 0;
        loop {
            let mut tables = self.lock_tables_after_waiters();
            let first = tables.first_index(region).map(|first| first.max(from));
            let end = tables.last_index(region).map(|last| last + 1);
            let (Some(start), Some(end)) = (first, end) else {
                return Ok(());
            };
            let to = end.min(start.saturating_add(LOOKED_UP_AT_ONCE));
            let places = entries_in_range(&mut tables, region, &(start..to), None)?;
            drop(tables);
            if places.is_empty() || !places.iter().all(&mut visit) {
                return Ok(());
            }
            from = to;
        }
    }
}
