//! Statistics of an engine: what it has, and what it did.

use std::time::Duration;

/// What an engine has, and what it did since it was opened, in numbers ([`Engine::stats`](crate::Engine::stats)). How many of the
/// bytes are still needed takes longer to say: [`Engine::usage`](crate::Engine::usage).
///
/// ```
/// use raft_recover::{Engine, LogBatch, MemoryFiles, Options};
///
/// let engine = Engine::with_files(MemoryFiles::new(), Options::new())?;
/// let before = engine.stats().syncs;
/// let mut batch = LogBatch::new()?;
/// batch.put(7, b"key", b"value")?;
/// engine.write(&mut batch, true)?;
/// let stats = engine.stats();
/// assert_eq!((stats.batches, stats.syncs - before), (1, 1));
/// # Ok::<(), raft_recover::Error>(())
/// ```
#[derive(Clone, Copy, PartialEq, Eq, Hash, Debug, Default)]
#[non_exhaustive]
pub struct Stats {
    /// The append queue.
    pub append: QueueStats,
    /// The rewrite queue.
    pub rewrite: QueueStats,
    /// How many batches with items were written.
    pub batches: u64,
    /// How many syncs were made, of either queue. Threads that write at the same time share them.
    pub syncs: u64,
    /// How long all syncs took together.
    pub sync_time: Duration,
    /// How long the opening took, with the reading of the files.
    pub opening: Duration,
    /// How many bytes the opening cut off the files. `Engine::recovered` says where, and why.
    pub cut_bytes: u64,
}

/// The files of a queue, in numbers.
///
/// ```
/// use raft_recover::{Engine, MemoryFiles, Options};
///
/// let engine = Engine::with_files(MemoryFiles::new(), Options::new())?;
/// let append = engine.stats().append;
/// assert_eq!((append.first_file, append.last_file, append.files), (1, 1, 1));
/// assert_eq!((append.bytes, append.records), (0, 0));
/// # Ok::<(), raft_recover::Error>(())
/// ```
#[derive(Clone, Copy, PartialEq, Eq, Hash, Debug, Default)]
#[non_exhaustive]
pub struct QueueStats {
    /// The number of the oldest file; 0 where there is none.
    pub first_file: u64,
    /// The number of the last file, at whose end is written; 0 where there is none.
    pub last_file: u64,
    /// How many files there are.
    pub files: usize,
    /// How many bytes the files have together.
    pub bytes: u64,
    /// How many live records are in these files: the entries and key values that the tables have there.
    pub records: usize,
}
