//! What a purge deleted, and what it left.

use crate::FileId;
use std::ops::AddAssign;

/// What [`Engine::purge`](crate::Engine::purge) deleted, and which regions need the oldest append file that is left.
///
/// ```
/// use raft_recover::{Engine, FileId, LogBatch, MemoryFiles, Options, Queue};
///
/// let engine = Engine::with_files(MemoryFiles::new(), Options::new())?;
/// engine.rotate()?;
/// let mut batch = LogBatch::new()?;
/// batch.add_entries(7, 10, &["one", "two", "three"])?;
/// engine.write(&mut batch, true)?;
/// engine.rotate()?;
///
/// let mut purged = engine.purge()?;
/// assert_eq!((purged.append_files, purged.rewrite_files), (1, 0));
/// assert_eq!(purged.files, [FileId::new(Queue::Append, 1)]);
/// let holder = purged.holders[0];
/// assert_eq!((holder.region, holder.file.seq, holder.entries), (7, 2, 3));
///
/// batch.compact(holder.region, holder.compact_to.unwrap())?;
/// engine.write(&mut batch, true)?;
/// purged += engine.purge()?;
/// assert_eq!((purged.append_files, purged.holders.len()), (2, 0));
/// # Ok::<(), raft_recover::Error>(())
/// ```
#[derive(Clone, PartialEq, Eq, Hash, Debug, Default)]
#[non_exhaustive]
pub struct Purged {
    /// How many files of the append queue were deleted.
    pub append_files: usize,
    /// How many files of the rewrite queue were deleted.
    pub rewrite_files: usize,
    /// The files that were deleted. A purge deletes in up to three steps: each has first its append files, then its rewrite
    /// files, each oldest first.
    pub files: Vec<FileId>,
    /// The regions that need the oldest append file, by rising numbers; none where there is only one append file. Once they don't
    /// need it any more, the next purge deletes it without moving anything.
    pub holders: Vec<Holder>,
}

/// A region that needs the oldest append file, so that the file can't be deleted.
///
/// ```
/// use raft_recover::{Engine, LogBatch, MemoryFiles, Options};
///
/// let engine = Engine::with_files(MemoryFiles::new(), Options::new())?;
/// let mut batch = LogBatch::new()?;
/// batch.put(7, b"key", b"value")?;
/// engine.write(&mut batch, true)?;
/// engine.rotate()?;
/// let holders = engine.purge()?.holders;
/// assert_eq!((holders[0].region, holders[0].compact_to), (7, None));
/// batch.put(7, b"key", b"value")?; // it stands in the new file now
/// engine.write(&mut batch, true)?;
/// assert_eq!(engine.purge()?.append_files, 1);
/// # Ok::<(), raft_recover::Error>(())
/// ```
#[derive(Clone, Copy, PartialEq, Eq, Hash, Debug)]
#[non_exhaustive]
pub struct Holder {
    /// The region.
    pub region: u64,
    /// That file.
    pub file: FileId,
    /// The index up to which its entries have to be compacted, without that index, so that none of them is in the file; `None`
    /// where none is. Keys may be there too: the region needs the file until these are put again, are deleted, or move.
    pub compact_to: Option<u64>,
    /// How many of its entries that compaction takes away; 0 where none is in the file.
    pub entries: u64,
}

impl AddAssign for Purged {
    /// Adds what a later purge deleted. The holders become those of the later one.
    fn add_assign(&mut self, later: Purged) {
        self.append_files += later.append_files;
        self.rewrite_files += later.rewrite_files;
        self.files.extend(later.files);
        self.holders = later.holders;
    }
}
