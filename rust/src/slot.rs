//! Slots: the tables of a part of the regions, to be kept under a lock of their own.

use crate::sys;
use crate::{Batch, Content, Entry, Error, FileId, Item, LogBatch, Queue, Result, Tables};
use std::fmt;
use std::ops::Deref;

/// The number of slots that the regions are divided among.
///
/// ```
/// assert_eq!(raft_recover::Tables::new()?.into_slots()?.len(), raft_recover::SLOTS);
/// # Ok::<(), raft_recover::Error>(())
/// ```
pub const SLOTS: usize = 128;

/// The key of a group marker, which begins or ends an atomic group. No table has it.
const GROUP_MARKER: &[u8] = b"__\x01";

/// Returns the number of the slot that a region belongs to. It is below [`SLOTS`].
///
/// ```
/// use raft_recover::{SLOTS, slot_of};
///
/// assert!((0..1000).all(|region| slot_of(region) < SLOTS));
/// ```
#[must_use]
pub fn slot_of(region: u64) -> usize {
    sys::slot_of(region)
}

/// The tables of the regions of one slot, the list of those of them that were cleaned, and how many of their records are live. It
/// is read as [`Tables`] are, and its calls do to these regions what those of `Tables` do.
///
/// It is `Send` and not `Sync`. An engine keeps a `[Mutex<Slot>; SLOTS]`, made of the slots of [`Tables::into_slots`], and locks
/// the one of [`slot_of`] a region. A change of a region of another slot is refused with `InvalidArgument`; such a region has no
/// table here. After an error all is as it was, but for the items of a batch: their calls say what stays.
///
/// ```
/// use raft_recover::{Content, FileId, Item, Queue, Tables, slot_of};
/// use std::sync::Mutex;
/// use std::thread;
///
/// let slots = Tables::new()?.into_slots()?.map(Mutex::new);
/// let file = FileId::new(Queue::Append, 1);
/// thread::scope(|scope| {
///     for region in 0..4 {
///         let slot = &slots[slot_of(region)];
///         scope.spawn(move || {
///             let content = Content::Put { key: b"key".to_vec(), value: b"value".to_vec() };
///             slot.lock().unwrap().write(&Item { region, content }, file).unwrap();
///         });
///     }
/// });
/// let slot = slots[slot_of(3)].lock().unwrap();
/// assert_eq!(slot.value(3, b"key").unwrap(), b"value");
/// # Ok::<(), raft_recover::Error>(())
/// ```
///
/// Threads can't share one without a lock:
///
/// ```compile_fail,E0277
/// let slot = raft_recover::Slot::new(5).unwrap();
/// std::thread::scope(|scope| {
///     scope.spawn(|| slot.cleaned());
/// });
/// ```
///
/// [`Tables`]: crate::Tables
/// [`Tables::into_slots`]: crate::Tables::into_slots
pub struct Slot {
    number: usize,
    tables: Tables,
}

impl Slot {
    /// Makes the slot with a number, without tables.
    ///
    /// ```
    /// use raft_recover::{SLOTS, Slot};
    ///
    /// assert_eq!(Slot::new(5)?.cleaned(), []);
    /// Slot::new(SLOTS).unwrap_err();
    /// # Ok::<(), raft_recover::Error>(())
    /// ```
    ///
    /// # Errors
    ///
    /// `InvalidArgument` where the number isn't below [`SLOTS`], `Memory`.
    pub fn new(number: usize) -> Result<Slot> {
        if number >= SLOTS {
            return Err(Error::invalid_argument(
                "the number of a slot isn't below 128",
            ));
        }
        let tables = Tables::new()?;
        Ok(Slot { number, tables })
    }

    /// Moves the table of a region, if there is one, out of `tables` into the slot.
    ///
    /// # Errors
    ///
    /// `InvalidArgument` for a region of another slot: nothing has changed then. `Full`, `Memory`: the table is lost then.
    pub(crate) fn take_table(&mut self, region: u64, tables: &mut Tables) -> Result<()> {
        self.check_region(region)?;
        tables.handle.move_table(region, &mut self.tables.handle)
    }

    /// Checks that a region belongs to the slot.
    ///
    /// # Errors
    ///
    /// `InvalidArgument` where it doesn't.
    fn check_region(&self, region: u64) -> Result<()> {
        if slot_of(region) == self.number {
            return Ok(());
        }
        Err(Error::invalid_argument("a region is of another slot"))
    }

    /// Returns the number of the slot.
    ///
    /// ```
    /// assert_eq!(raft_recover::Slot::new(5)?.number(), 5);
    /// # Ok::<(), raft_recover::Error>(())
    /// ```
    #[must_use]
    pub fn number(&self) -> usize {
        self.number
    }

    /// Appends `entries`, which stand in the append queue and have consecutive indexes, to those of a region. The region's
    /// entries from the first new index on are dropped. Without new entries nothing changes.
    ///
    /// ```
    /// # use raft_recover::{Block, Entry, FileId, Queue, Slot, slot_of};
    /// # let block = |queue, seq| Block { file: FileId::new(queue, seq), offset: 16, len: 34 };
    /// # let place = |queue, seq, index| Entry { index, block: block(queue, seq), offset: 0, len: 10 };
    /// # let mut slot = Slot::new(slot_of(7))?;
    /// let run = [1, 2, 3].map(|index| place(Queue::Append, 9, index));
    /// slot.append(7, &run)?;
    /// slot.append(7, &[place(Queue::Append, 9, 2)])?;
    /// assert_eq!(slot.entry(7, 3), None); // the new run ends below
    /// slot.append(7, &[place(Queue::Append, 9, 9)]).unwrap_err(); // a hole
    /// # Ok::<(), raft_recover::Error>(())
    /// ```
    ///
    /// # Errors
    ///
    /// Those of `Tables::append`, and `InvalidArgument` for a region of another slot.
    pub fn append(&mut self, region: u64, entries: &[Entry]) -> Result<()> {
        self.check_region(region)?;
        self.tables.append(region, entries)
    }

    /// Drops the entries of a region below an index, and returns how many were dropped.
    ///
    /// ```
    /// # use raft_recover::{Block, Entry, FileId, Queue, Slot, slot_of};
    /// # let block = |queue, seq| Block { file: FileId::new(queue, seq), offset: 16, len: 34 };
    /// # let place = |queue, seq, index| Entry { index, block: block(queue, seq), offset: 0, len: 10 };
    /// # let mut slot = Slot::new(slot_of(7))?;
    /// let run = [1, 2, 3].map(|index| place(Queue::Append, 9, index));
    /// slot.append(7, &run)?;
    /// assert_eq!(slot.compact(7, 3)?, 2);
    /// assert_eq!(slot.summary(7).unwrap().first_index, Some(3));
    /// # Ok::<(), raft_recover::Error>(())
    /// ```
    ///
    /// # Errors
    ///
    /// `InvalidArgument` for a region of another slot, `Memory`.
    pub fn compact(&mut self, region: u64, index: u64) -> Result<u64> {
        self.check_region(region)?;
        self.tables.compact(region, index)
    }

    /// Drops the entries of a region from an index on, and returns how many were dropped.
    ///
    /// ```
    /// # use raft_recover::{Block, Entry, FileId, Queue, Slot, slot_of};
    /// # let block = |queue, seq| Block { file: FileId::new(queue, seq), offset: 16, len: 34 };
    /// # let place = |queue, seq, index| Entry { index, block: block(queue, seq), offset: 0, len: 10 };
    /// # let mut slot = Slot::new(slot_of(7))?;
    /// let run = [1, 2, 3].map(|index| place(Queue::Append, 9, index));
    /// slot.append(7, &run)?;
    /// assert_eq!(slot.truncate(7, 3)?, 1);
    /// assert_eq!(slot.entry(7, 3), None);
    /// # Ok::<(), raft_recover::Error>(())
    /// ```
    ///
    /// # Errors
    ///
    /// `InvalidArgument` for a region of another slot, `Memory`.
    pub fn truncate(&mut self, region: u64, index: u64) -> Result<u64> {
        self.check_region(region)?;
        self.tables.truncate(region, index)
    }

    /// Puts `key` with `value` into the table of a region, in place of an older value. Both are copied; `file` is the one to
    /// which they were written.
    ///
    /// ```
    /// # use raft_recover::{FileId, Queue, Slot, slot_of};
    /// # let mut slot = Slot::new(slot_of(7))?;
    /// slot.put(7, b"key", b"value", FileId::new(Queue::Append, 9))?;
    /// assert_eq!(slot.value(7, b"key").unwrap(), b"value");
    /// # Ok::<(), raft_recover::Error>(())
    /// ```
    ///
    /// # Errors
    ///
    /// `InvalidArgument` for a region of another slot, `Full`, `Memory`.
    pub fn put(&mut self, region: u64, key: &[u8], value: &[u8], file: FileId) -> Result<()> {
        self.check_region(region)?;
        self.tables.put(region, key, value, file)
    }

    /// Deletes a key of a region and its value, if there is one.
    ///
    /// ```
    /// # use raft_recover::{FileId, Queue, Slot, slot_of};
    /// # let mut slot = Slot::new(slot_of(7))?;
    /// slot.put(7, b"key", b"value", FileId::new(Queue::Append, 9))?;
    /// slot.delete(7, b"key")?;
    /// assert_eq!(slot.value(7, b"key"), None);
    /// # Ok::<(), raft_recover::Error>(())
    /// ```
    ///
    /// # Errors
    ///
    /// `InvalidArgument` for a region of another slot, `Memory`.
    pub fn delete(&mut self, region: u64, key: &[u8]) -> Result<()> {
        self.check_region(region)?;
        self.tables.delete(region, key)
    }

    /// Moves entries of a region to the places in the rewrite queue that `entries` has, as far as they may move: with a `gate`
    /// those in append files numbered at or below it, without one those that are in rewrite files already.
    ///
    /// ```
    /// # use raft_recover::{Block, Entry, FileId, Queue, Slot, slot_of};
    /// # let block = |queue, seq| Block { file: FileId::new(queue, seq), offset: 16, len: 34 };
    /// # let place = |queue, seq, index| Entry { index, block: block(queue, seq), offset: 0, len: 10 };
    /// # let mut slot = Slot::new(slot_of(7))?;
    /// let run = [1, 2, 3].map(|index| place(Queue::Append, 9, index));
    /// slot.append(7, &run)?;
    /// let moved = run.map(|entry| place(Queue::Rewrite, 2, entry.index));
    /// slot.rewrite(7, &moved, Some(8))?; // they are in file 9
    /// assert_eq!(slot.entry(7, 1), Some(run[0]));
    /// slot.rewrite(7, &moved, Some(9))?;
    /// assert_eq!(slot.entry(7, 1), Some(moved[0]));
    /// # Ok::<(), raft_recover::Error>(())
    /// ```
    ///
    /// # Errors
    ///
    /// Those of `Tables::rewrite`, and `InvalidArgument` for a region of another slot.
    pub fn rewrite(&mut self, region: u64, entries: &[Entry], gate: Option<u64>) -> Result<()> {
        self.check_region(region)?;
        self.tables.rewrite(region, entries, gate)
    }

    /// Moves a key of a region with its value to the rewrite file numbered `seq`: from an append file only if there is a `gate`
    /// and the file is numbered at or below it, from a rewrite file always.
    ///
    /// ```
    /// # use raft_recover::{FileId, Queue, Slot, slot_of};
    /// # let mut slot = Slot::new(slot_of(7))?;
    /// slot.put(7, b"key", b"value", FileId::new(Queue::Append, 9))?;
    /// slot.rewrite_key(7, b"key", Some(9), 2)?;
    /// assert_eq!(slot.summary(7).unwrap().rewrite_seq, Some(2));
    /// # Ok::<(), raft_recover::Error>(())
    /// ```
    ///
    /// # Errors
    ///
    /// Those of `Tables::rewrite_key`, and `InvalidArgument` for a region of another slot.
    pub fn rewrite_key(
        &mut self,
        region: u64,
        key: &[u8],
        gate: Option<u64>,
        seq: u64,
    ) -> Result<()> {
        self.check_region(region)?;
        self.tables.rewrite_key(region, key, gate, seq)
    }

    /// Notes the numbers of the rewrite files in which a region's last atomic group begins and ends, `start` and `end`, once
    /// the end of that group is written.
    ///
    /// ```
    /// # use raft_recover::{FileId, Queue, Slot, slot_of};
    /// # let mut slot = Slot::new(slot_of(7))?;
    /// slot.put(7, b"key", b"value", FileId::new(Queue::Append, 9))?;
    /// slot.rewrite_key(7, b"key", Some(9), 2)?;
    /// slot.set_atomic_group(7, 1, 2)?;
    /// assert_eq!(slot.summary(7).unwrap().rewrite_seq, Some(1));
    /// # Ok::<(), raft_recover::Error>(())
    /// ```
    ///
    /// # Errors
    ///
    /// `InvalidArgument` where `start` is above `end` or for a region of another slot, `Memory`.
    pub fn set_atomic_group(&mut self, region: u64, start: u64, end: u64) -> Result<()> {
        self.check_region(region)?;
        self.tables.set_atomic_group(region, start, end)
    }

    /// Removes the table of a region, and returns whether there was one. With `is_listed` it lists the region as cleaned, even if
    /// it had no table.
    ///
    /// ```
    /// # use raft_recover::{FileId, Queue, Slot, slot_of};
    /// # let mut slot = Slot::new(slot_of(7))?;
    /// slot.put(7, b"key", b"value", FileId::new(Queue::Append, 9))?;
    /// assert!(slot.remove(7, true)?);
    /// assert!(!slot.remove(7, false)?);
    /// assert_eq!(slot.cleaned(), [7]);
    /// # Ok::<(), raft_recover::Error>(())
    /// ```
    ///
    /// # Errors
    ///
    /// `InvalidArgument` for a region of another slot; `Memory`, only with `is_listed`.
    pub fn remove(&mut self, region: u64, is_listed: bool) -> Result<bool> {
        self.check_region(region)?;
        self.tables.remove(region, is_listed)
    }

    /// Returns an open batch with a `Clean` for each of the cleaned regions, in order, and empties their list. The batch has to
    /// be written to the rewrite queue ([`Tables::take_cleaned_logs`] says when).
    ///
    /// ```
    /// # use raft_recover::{Content, Slot, slot_of};
    /// # let mut slot = Slot::new(slot_of(7))?;
    /// slot.remove(7, true)?;
    /// let batch = slot.take_cleaned_logs()?;
    /// assert_eq!(batch.into_items()?.get(0).unwrap().content, Content::Clean);
    /// assert_eq!(slot.cleaned(), []);
    /// # Ok::<(), raft_recover::Error>(())
    /// ```
    ///
    /// # Errors
    ///
    /// `Memory`. The list is then as it was.
    pub fn take_cleaned_logs(&mut self) -> Result<LogBatch> {
        self.tables.take_cleaned_logs()
    }

    /// Checks that [`Slot::apply_append`] would accept those items of a batch whose regions belong to the slot, once the batch is
    /// written to the append queue. Nothing is changed, and the batch may be at any stage. All slots together accept a batch if
    /// each of them does.
    ///
    /// ```
    /// # use raft_recover::{LogBatch, Slot, slot_of};
    /// # let slot = Slot::new(slot_of(7))?;
    /// let mut batch = LogBatch::new()?;
    /// batch.add_entries(7, 1, &["an entry"])?;
    /// slot.check_append(&batch)?;
    /// batch.add_entries(7, 9, &["behind a hole"])?;
    /// slot.check_append(&batch).unwrap_err();
    /// # Ok::<(), raft_recover::Error>(())
    /// ```
    ///
    /// # Errors
    ///
    /// `Corruption` where an item would be refused: the error has the item, the region and the index. `Memory`.
    pub fn check_append(&self, batch: &LogBatch) -> Result<()> {
        let checked = self
            .tables
            .handle
            .check_slot_append(self.number, batch.handle());
        let is_here = |region| slot_of(region) == self.number;
        checked.map_err(|e| batch.name_refused_item(e, is_here, |region| self.summary(region)))
    }

    /// Applies those items of a batch of the append queue whose regions belong to the slot, in order. The batch is only read,
    /// since other slots apply its other items ([`Batch::slots`] says which).
    ///
    /// ```
    /// use raft_recover::{LogBatch, LogFile, Queue, Tables, Version};
    ///
    /// let mut slots = Tables::new()?.into_slots()?;
    /// let file = LogFile::new(Queue::Append, 1, Version::V2);
    /// let mut batch = LogBatch::new()?;
    /// for region in 0..4 {
    ///     batch.add_entries(region, 1, &["an entry"])?;
    /// }
    /// for slot in &slots {
    ///     slot.check_append(&batch)?;
    /// }
    /// batch.finish()?;
    /// batch.sign(file)?;
    /// batch.written(file.into(), 0)?; // the bytes are in the file
    /// let items = batch.into_items()?;
    /// for number in items.slots() {
    ///     slots[number].apply_append(&items)?;
    /// }
    /// assert_eq!(slots.iter().map(|slot| slot.live(Queue::Append)).sum::<usize>(), 4);
    /// # Ok::<(), raft_recover::Error>(())
    /// ```
    ///
    /// # Errors
    ///
    /// `Corruption`, `Full` or `Memory` at the first item that is refused. The items before it are applied then, and no others.
    pub fn apply_append(&mut self, batch: &Batch) -> Result<()> {
        self.tables
            .handle
            .apply_slot_append(self.number, batch.handle())
    }

    /// Applies those items of a batch whose regions belong to the slot, in order. The batch was written to the rewrite file
    /// numbered `seq`, to move records: `gate` says which, as for [`Slot::rewrite`].
    ///
    /// ```
    /// # use raft_recover::{FileId, LogBatch, LogFile, Queue, Slot, Version, slot_of};
    /// # let mut slot = Slot::new(slot_of(7))?;
    /// slot.put(7, b"key", b"value", FileId::new(Queue::Append, 9))?;
    /// let file = LogFile::new(Queue::Rewrite, 2, Version::V2);
    /// let mut batch = LogBatch::new()?;
    /// batch.put(7, b"key", b"value")?;
    /// batch.finish()?;
    /// batch.sign(file)?;
    /// batch.written(file.into(), 0)?;
    /// slot.apply_rewrite(&batch.into_items()?, Some(9), 2)?;
    /// assert_eq!(slot.live(Queue::Rewrite), 1);
    /// # Ok::<(), raft_recover::Error>(())
    /// ```
    ///
    /// # Errors
    ///
    /// Those of [`Slot::apply_append`].
    pub fn apply_rewrite(&mut self, batch: &Batch, gate: Option<u64>, seq: u64) -> Result<()> {
        self.tables
            .handle
            .apply_slot_rewrite(self.number, batch.handle(), gate, seq)
    }

    /// Applies one item of the append queue, which was written to `file`. A group marker changes nothing.
    ///
    /// ```
    /// # use raft_recover::{Content, FileId, Item, Queue, Slot, slot_of};
    /// # let mut slot = Slot::new(slot_of(7))?;
    /// let content = Content::Put { key: b"key".to_vec(), value: b"value".to_vec() };
    /// slot.write(&Item { region: 7, content }, FileId::new(Queue::Append, 9))?;
    /// assert_eq!(slot.value(7, b"key").unwrap(), b"value");
    /// # Ok::<(), raft_recover::Error>(())
    /// ```
    ///
    /// # Errors
    ///
    /// Those of the call for what the item does, such as [`Slot::append`] or [`Slot::put`]; `InvalidArgument` for a put in a file
    /// of the rewrite queue. The slot is as it was then.
    pub fn write(&mut self, item: &Item, file: FileId) -> Result<()> {
        let region = item.region;
        match &item.content {
            Content::Put { key, .. } | Content::Delete { key }
                if key.as_slice() == GROUP_MARKER =>
            {
                Ok(())
            }
            Content::Entries(entries) => self.append(region, entries),
            Content::Clean => self.remove(region, true).map(drop),
            Content::Compact { index } => self.compact(region, *index).map(drop),
            Content::Truncate { index } => self.truncate(region, *index).map(drop),
            Content::Put { .. } if file.queue == Queue::Rewrite => Err(Error::invalid_argument(
                "a new item is in a file of the rewrite queue",
            )),
            Content::Put { key, value } => self.put(region, key, value, file),
            Content::Delete { key } => self.delete(region, key),
        }
    }
}

/// Lends the tables of the slot, to be read.
impl Deref for Slot {
    type Target = Tables;

    /// Returns the tables of the slot.
    fn deref(&self) -> &Tables {
        &self.tables
    }
}

impl fmt::Debug for Slot {
    /// Shows the number of the slot, and how many records are live in each queue.
    fn fmt(&self, f: &mut fmt::Formatter<'_>) -> fmt::Result {
        f.debug_struct("Slot")
            .field("number", &self.number())
            .field("live_append", &self.live(Queue::Append))
            .field("live_rewrite", &self.live(Queue::Rewrite))
            .finish_non_exhaustive()
    }
}
