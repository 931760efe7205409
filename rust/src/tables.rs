//! Tables of all regions: which records there are, and where.

use crate::sys::TablesHandle;
use crate::{Queue, Result, SLOTS, Slot, slot_of};
use std::fmt;

mod changes;
mod readers;
mod summary;

pub use summary::Summary;

/// The tables of all regions, the list of regions that were cleaned, and how many records are live.
///
/// The table of a region says which entries and keys it has, and where: the place of each entry, the value of each key and its
/// file.
///
/// It is `Send` and not `Sync`: to share it, put it behind a `Mutex`. After an error all is as it was, but for merges and the
/// items of a batch: their calls say what stays.
///
/// Its `Display` has the lines that the tool `raftlog` prints for `recover`.
///
/// ```
/// use raft_recover::{Block, Entry, FileId, Queue, Tables};
///
/// let file = FileId::new(Queue::Append, 9);
/// let block = Block { file, offset: 16, len: 34 };
/// let entry = |index| Entry { index, block, offset: 0, len: 10 };
/// let mut tables = Tables::new()?;
/// tables.append(7, &[entry(1), entry(2), entry(3)])?;
/// tables.put(7, b"key", b"value", file)?;
/// assert_eq!(tables.compact(7, 2)?, 1);
/// assert_eq!(tables.entries(7, 2..4, None)?, [entry(2), entry(3)]);
/// assert_eq!(tables.value(7, b"key").unwrap(), b"value");
/// let expected = "7 entries 2..4 keys 1 append 9 rewrite -\ncleaned -\nlive 3 0\n";
/// assert_eq!(tables.to_string(), expected);
/// # Ok::<(), raft_recover::Error>(())
/// ```
///
/// Threads can't share tables without a lock, and tables aren't copied:
///
/// ```compile_fail,E0277
/// let tables = raft_recover::Tables::new().unwrap();
/// std::thread::scope(|scope| {
///     scope.spawn(|| tables.cleaned());
/// });
/// ```
///
/// ```compile_fail,E0599
/// let tables = raft_recover::Tables::new().unwrap();
/// let copy = tables.clone();
/// ```
///
/// Tables that were divided into slots or merged into others are gone:
///
/// ```compile_fail,E0382
/// let tables = raft_recover::Tables::new().unwrap();
/// tables.into_slots().unwrap();
/// tables.cleaned();
/// ```
///
/// ```compile_fail,E0382
/// use raft_recover::Tables;
///
/// let (mut older, newer) = (Tables::new().unwrap(), Tables::new().unwrap());
/// older.merge_newer(newer).unwrap();
/// newer.cleaned();
/// ```
pub struct Tables {
    pub(crate) handle: TablesHandle,
}

impl Tables {
    /// Makes tables of the library's handle of them.
    pub(crate) fn from_handle(handle: TablesHandle) -> Tables {
        Tables { handle }
    }

    /// Makes tables of no region.
    ///
    /// ```
    /// assert_eq!(raft_recover::Tables::new()?.to_string(), "cleaned -\nlive 0 0\n");
    /// # Ok::<(), raft_recover::Error>(())
    /// ```
    ///
    /// # Errors
    ///
    /// `Memory`.
    pub fn new() -> Result<Tables> {
        Ok(Tables::from_handle(TablesHandle::new()?))
    }

    /// Divides the tables and the list of cleaned regions among slots, which are returned in the order of their numbers. What
    /// concerns a region goes to the slot of [`slot_of`] the region. Within a slot the list keeps its order.
    ///
    /// ```
    /// # use raft_recover::{FileId, Queue, Tables, slot_of};
    /// # let mut tables = Tables::new()?;
    /// tables.put(7, b"key", b"value", FileId::new(Queue::Append, 9))?;
    /// let slots = tables.into_slots()?;
    /// assert_eq!(slots[slot_of(7)].value(7, b"key").unwrap(), b"value");
    /// # Ok::<(), raft_recover::Error>(())
    /// ```
    ///
    /// # Errors
    ///
    /// `Memory`. The tables are lost then.
    pub fn into_slots(mut self) -> Result<[Slot; SLOTS]> {
        let slots: Result<Vec<_>> = (0..SLOTS).map(Slot::new).collect();
        let mut slots = slots?;
        for region in self.cleaned() {
            slots[slot_of(region)].remove(region, true)?;
        }
        for region in self.regions()? {
            slots[slot_of(region)].take_table(region, &mut self)?;
        }
        Ok(slots
            .try_into()
            .expect("there are as many slots as numbers"))
    }

    /// Merges tables of the batches that follow, each into the table of its region. Both are of the same queue. The list of
    /// cleaned regions of `newer` is dropped.
    ///
    /// ```
    /// # use raft_recover::{FileId, Queue, Tables};
    /// # let mut tables = Tables::new()?;
    /// tables.put(7, b"key", b"value", FileId::new(Queue::Append, 9))?;
    /// let mut newer = Tables::new()?;
    /// newer.put(7, b"key", b"new", FileId::new(Queue::Append, 10))?;
    /// tables.merge_newer(newer)?;
    /// assert_eq!(tables.value(7, b"key").unwrap(), b"new");
    /// # Ok::<(), raft_recover::Error>(())
    /// ```
    ///
    /// # Errors
    ///
    /// `Corruption` where a table of `newer` can't follow that of its region; `Full`; `Memory`. Some tables are merged then, the
    /// others as they were, and the rest of `newer` is lost; after `Memory` one table may be lost too.
    pub fn merge_newer(&mut self, newer: Tables) -> Result<()> {
        self.handle.merge_newer(newer.handle)
    }

    /// Merges tables of the append queue into these of the rewrite queue, each into the table of its region. The list of cleaned
    /// regions of `append` is dropped.
    ///
    /// ```
    /// # use raft_recover::{FileId, Queue, Tables};
    /// # let mut tables = Tables::new()?;
    /// tables.put(7, b"key", b"value", FileId::new(Queue::Append, 9))?;
    /// let mut both = Tables::new()?;
    /// both.put(7, b"key", b"old", FileId::new(Queue::Rewrite, 1))?;
    /// both.merge_append(tables)?;
    /// assert_eq!(both.value(7, b"key").unwrap(), b"value");
    /// # Ok::<(), raft_recover::Error>(())
    /// ```
    ///
    /// # Errors
    ///
    /// Those of [`Tables::merge_newer`].
    pub fn merge_append(&mut self, append: Tables) -> Result<()> {
        self.handle.merge_append(append.handle)
    }

    /// Writes a line for a region: its entries, how many keys it has, and the oldest file of each queue that it needs. Nothing
    /// for a region without a table.
    ///
    /// # Errors
    ///
    /// The writer's.
    fn write_region(&self, region: u64, f: &mut fmt::Formatter<'_>) -> fmt::Result {
        let Some(summary) = self.summary(region) else {
            return Ok(());
        };
        write!(f, "{region} entries ")?;
        match summary.first_index {
            Some(first) => write!(f, "{first}..{}", first + summary.entries as u64)?,
            None => f.write_str("-")?,
        }
        write!(f, " keys {}", summary.keys)?;
        for (name, seq) in [
            ("append", summary.append_seq),
            ("rewrite", summary.rewrite_seq),
        ] {
            match seq {
                Some(seq) => write!(f, " {name} {seq}")?,
                None => write!(f, " {name} -")?,
            }
        }
        f.write_str("\n")
    }
}

impl fmt::Debug for Tables {
    /// Shows how many records are live in each queue.
    fn fmt(&self, f: &mut fmt::Formatter<'_>) -> fmt::Result {
        f.debug_struct("Tables")
            .field("live_append", &self.live(Queue::Append))
            .field("live_rewrite", &self.live(Queue::Rewrite))
            .finish_non_exhaustive()
    }
}

impl fmt::Display for Tables {
    /// Writes a line for each region that has a table, one for the cleaned regions, and one with how many records are live in
    /// each queue.
    ///
    /// # Errors
    ///
    /// The writer's; an error too where there is no memory for the list of regions.
    fn fmt(&self, f: &mut fmt::Formatter<'_>) -> fmt::Result {
        for region in self.regions().map_err(|_| fmt::Error)? {
            self.write_region(region, f)?;
        }
        f.write_str("cleaned")?;
        let cleaned = self.cleaned();
        if cleaned.is_empty() {
            f.write_str(" -")?;
        }
        for region in cleaned {
            write!(f, " {region}")?;
        }
        let (append, rewrite) = (self.live(Queue::Append), self.live(Queue::Rewrite));
        writeln!(f, "\nlive {append} {rewrite}")
    }
}
