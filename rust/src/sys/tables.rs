//! Handles of tables.

use super::table_calls::{
    raft_ffi_slot_apply_append, raft_ffi_slot_apply_rewrite, raft_ffi_slot_check_append,
    raft_ffi_tables_append, raft_ffi_tables_apply_append, raft_ffi_tables_apply_rewrite,
    raft_ffi_tables_atomic_group, raft_ffi_tables_check_append, raft_ffi_tables_cleaned,
    raft_ffi_tables_cleaned_logs, raft_ffi_tables_compact, raft_ffi_tables_delete,
    raft_ffi_tables_drop, raft_ffi_tables_entries, raft_ffi_tables_entries_before,
    raft_ffi_tables_entry, raft_ffi_tables_live, raft_ffi_tables_merge_append,
    raft_ffi_tables_merge_newer, raft_ffi_tables_move_table, raft_ffi_tables_new,
    raft_ffi_tables_pairs_before, raft_ffi_tables_put, raft_ffi_tables_regions,
    raft_ffi_tables_remove, raft_ffi_tables_rewrite, raft_ffi_tables_rewrite_key,
    raft_ffi_tables_rewritten_entries, raft_ffi_tables_rewritten_pairs, raft_ffi_tables_scan,
    raft_ffi_tables_summary, raft_ffi_tables_truncate, raft_ffi_tables_value,
};
use super::{
    EntryNumbers, Handle, ItemsHandle, LogBatchHandle, SummaryNumbers, check_call,
    check_memory_code, fill_list, fill_list_if_found, fill_pairs, to_entries, to_entry_numbers,
    with_handle,
};
use crate::{Entry, FileId, Pair, Queue, Result, Summary};
use std::cell::Cell;
use std::mem;
use std::ops::Range;

/// Owns tables of the library. A call that only reads them lends their handle from the cell.
#[derive(Debug)]
pub(crate) struct TablesHandle(pub(super) Cell<Handle>);

// SAFETY: the library proves that its handle may move to another thread; the cell makes this type no `Sync`.
unsafe impl Send for TablesHandle {}

impl TablesHandle {
    /// Makes tables of no region. The only error is `Memory`.
    pub(crate) fn new() -> Result<TablesHandle> {
        let mut handle = Handle::EMPTY;
        // SAFETY: `empty`: the handle is empty.
        check_memory_code(unsafe { raft_ffi_tables_new(&mut handle) })?;
        Ok(TablesHandle(Cell::new(handle)))
    }

    /// Gives up the ownership, and returns the library's handle. The caller has to free its value, or to give it to the
    /// library.
    fn into_raw(self) -> Handle {
        let handle = self.0.get();
        mem::forget(self);
        handle
    }

    /// Returns how many records are live in a queue.
    pub(crate) fn count_live(&self, queue: Queue) -> usize {
        // SAFETY: `held`: the handle holds tables.
        with_handle(&self.0, |tables| unsafe {
            raft_ffi_tables_live(tables, queue == Queue::Rewrite)
        })
    }

    /// Returns how many records the table of a region has, and which files it needs; `None` where
    /// there is no table.
    pub(crate) fn summary(&self, region: u64) -> Option<Summary> {
        let mut summary = SummaryNumbers::default();
        // SAFETY: `held`: the handle holds tables.
        let is_found = with_handle(&self.0, |tables| unsafe {
            raft_ffi_tables_summary(tables, region, &mut summary)
        });
        is_found.then(|| summary.into())
    }

    /// Returns the numbers of the regions that have a table, in rising order. The only error is
    /// `Memory`.
    pub(crate) fn regions(&self) -> Result<Vec<u64>> {
        fill_list(|room, len, count| {
            // SAFETY: `held`: the handle holds tables.
            check_memory_code(with_handle(&self.0, |tables| unsafe {
                raft_ffi_tables_regions(tables, room, len, count)
            }))
        })
    }

    /// Returns the list of cleaned regions, in the order in which they were cleaned. Without memory for the list the program
    /// ends.
    pub(crate) fn cleaned(&self) -> Vec<u64> {
        fill_list_if_found(|room, len, count| {
            // SAFETY: `held`: the handle holds tables.
            *count = with_handle(&self.0, |tables| unsafe {
                raft_ffi_tables_cleaned(tables, room, len)
            });
            true
        })
        .unwrap_or_default()
    }

    /// Returns the entry of a region at an index, with its place; `None` where the region has no entry there.
    pub(crate) fn entry(&self, region: u64, index: u64) -> Option<Entry> {
        let mut entry = EntryNumbers::default();
        // SAFETY: `held`: the handle holds tables.
        let is_found = with_handle(&self.0, |tables| unsafe {
            raft_ffi_tables_entry(tables, region, index, &mut entry)
        });
        is_found.then(|| entry.into())
    }

    /// Returns the entries of a range of a region's indexes with their places, in order. With a
    /// `max_size` these are the first ones, as many as have at most so many bytes together; the
    /// first one that has bytes is returned whatever its size.
    ///
    /// # Errors
    ///
    /// `EntryCompacted` or `EntryNotFound` where the region doesn't have all of a range that isn't
    /// empty; `Memory`.
    pub(crate) fn entries(
        &self,
        region: u64,
        range: Range<u64>,
        max_size: Option<u64>,
    ) -> Result<Vec<Entry>> {
        let list = fill_list(|room, len, count| {
            check_call(|text, text_len| {
                // SAFETY: `held`: the handle holds tables.
                with_handle(&self.0, |tables| unsafe {
                    raft_ffi_tables_entries(
                        tables,
                        region,
                        range.start,
                        range.end,
                        max_size.into(),
                        room,
                        len,
                        count,
                        text,
                        text_len,
                    )
                })
            })
        })?;
        Ok(to_entries(list))
    }

    /// Returns the appended entries of a region, from the first one on, as long as their file is
    /// numbered at or below `gate`. The only error is `Memory`.
    pub(crate) fn entries_before(&self, region: u64, gate: u64) -> Result<Vec<Entry>> {
        let list = fill_list(|room, len, count| {
            // SAFETY: `held`: the handle holds tables.
            check_memory_code(with_handle(&self.0, |tables| unsafe {
                raft_ffi_tables_entries_before(tables, region, gate, room, len, count)
            }))
        })?;
        Ok(to_entries(list))
    }

    /// Returns the entries of a region that are in rewrite files, in order. The only error is
    /// `Memory`.
    pub(crate) fn rewritten_entries(&self, region: u64) -> Result<Vec<Entry>> {
        let list = fill_list(|room, len, count| {
            // SAFETY: `held`: the handle holds tables.
            check_memory_code(with_handle(&self.0, |tables| unsafe {
                raft_ffi_tables_rewritten_entries(tables, region, room, len, count)
            }))
        })?;
        Ok(to_entries(list))
    }

    /// Returns a copy of the value of a region's key; `None` where it has none.
    pub(crate) fn value(&self, region: u64, key: &[u8]) -> Option<Vec<u8>> {
        fill_list_if_found(|room, len, count| {
            // SAFETY: `held`: the handle holds tables.
            with_handle(&self.0, |tables| unsafe {
                raft_ffi_tables_value(tables, region, key.as_ptr(), key.len(), room, len, count)
            })
        })
    }

    /// Returns the keys of a region that are in append files numbered at or below `gate`, with
    /// their values, in the order of the keys. The only error is `Memory`.
    pub(crate) fn pairs_before(&self, region: u64, gate: u64) -> Result<Vec<Pair>> {
        fill_pairs(|lens, lens_len, count, bytes, bytes_len, len| {
            // SAFETY: `held`: the handle holds tables.
            check_memory_code(with_handle(&self.0, |tables| unsafe {
                raft_ffi_tables_pairs_before(
                    tables, region, gate, lens, lens_len, count, bytes, bytes_len, len,
                )
            }))
        })
    }

    /// Returns the keys of a region that are in rewrite files, with their values, in the order of
    /// the keys. The only error is `Memory`.
    pub(crate) fn rewritten_pairs(&self, region: u64) -> Result<Vec<Pair>> {
        fill_pairs(|lens, lens_len, count, bytes, bytes_len, len| {
            // SAFETY: `held`: the handle holds tables.
            check_memory_code(with_handle(&self.0, |tables| unsafe {
                raft_ffi_tables_rewritten_pairs(
                    tables, region, lens, lens_len, count, bytes, bytes_len, len,
                )
            }))
        })
    }

    /// Returns all keys of a region with their values, in the order of the keys. The only error is
    /// `Memory`.
    pub(crate) fn pairs(&self, region: u64) -> Result<Vec<Pair>> {
        let none: &[u8] = &[];
        fill_pairs(|lens, lens_len, count, bytes, bytes_len, len| {
            // SAFETY: `held`: the handle holds tables.
            check_memory_code(with_handle(&self.0, |tables| unsafe {
                raft_ffi_tables_scan(
                    tables,
                    region,
                    none.as_ptr(),
                    0,
                    none.as_ptr(),
                    0,
                    false,
                    lens,
                    lens_len,
                    count,
                    bytes,
                    bytes_len,
                    len,
                )
            }))
        })
    }

    /// Checks that the tables would accept the items of a batch, once it is written to the append
    /// queue. Nothing is changed.
    ///
    /// # Errors
    ///
    /// `Corruption` where they would refuse an item; `Memory`.
    pub(crate) fn check_append(&self, batch: &LogBatchHandle) -> Result<()> {
        check_call(|text, text_len| {
            with_handle(&self.0, |tables| {
                // SAFETY: `held`, `batch`: the handles hold tables and a batch.
                with_handle(&batch.0, |batch| unsafe {
                    raft_ffi_tables_check_append(tables, batch, text, text_len)
                })
            })
        })
    }

    /// Checks that the tables of slot `number` would accept those items of a batch whose regions
    /// belong to that slot, once the batch is written to the append queue. Nothing is changed.
    ///
    /// # Errors
    ///
    /// `Corruption` where they would refuse an item; `Memory`.
    pub(crate) fn check_slot_append(&self, number: usize, batch: &LogBatchHandle) -> Result<()> {
        check_call(|text, text_len| {
            with_handle(&self.0, |tables| {
                // SAFETY: `held`, `batch`: the handles hold tables and a batch.
                with_handle(&batch.0, |batch| unsafe {
                    raft_ffi_slot_check_append(tables, number, batch, text, text_len)
                })
            })
        })
    }

    /// Returns an open batch with a `Clean` for each of the cleaned regions, in order, and empties
    /// their list. The only error is `Memory`: the list is as it was then.
    pub(crate) fn take_cleaned_logs(&mut self) -> Result<LogBatchHandle> {
        let mut batch = Handle::EMPTY;
        // SAFETY: `held`, `empty`: the one handle holds tables, and the other one is empty.
        check_memory_code(unsafe { raft_ffi_tables_cleaned_logs(self.0.as_ptr(), &mut batch) })?;
        Ok(LogBatchHandle::from_raw(batch))
    }

    /// Appends `entries`, which stand in the append queue and have consecutive indexes, to those of a region. The region's
    /// entries from the first new index on are dropped.
    ///
    /// # Errors
    ///
    /// `InvalidArgument` where the indexes don't rise by one, or a place is in the rewrite queue;
    /// `Corruption` where the new entries leave a hole behind those of the region, or begin below
    /// all of them; `Full`; `Memory`. The tables are as they were then.
    pub(crate) fn append(&mut self, region: u64, entries: &[Entry]) -> Result<()> {
        let run = to_entry_numbers(entries);
        // SAFETY: `held`: the handle holds tables.
        check_call(|text, text_len| unsafe {
            raft_ffi_tables_append(
                self.0.as_ptr(),
                region,
                run.as_ptr(),
                run.len(),
                text,
                text_len,
            )
        })
    }

    /// Drops the entries of a region below an index, and returns how many were dropped. The only
    /// error is `Memory`: the tables are as they were then.
    pub(crate) fn compact(&mut self, region: u64, index: u64) -> Result<u64> {
        let mut dropped = 0;
        // SAFETY: `held`: the handle holds tables.
        check_call(|text, text_len| unsafe {
            raft_ffi_tables_compact(self.0.as_ptr(), region, index, &mut dropped, text, text_len)
        })?;
        Ok(dropped)
    }

    /// Drops the entries of a region from an index on, and returns how many were dropped. The only
    /// error is `Memory`: the tables are as they were then.
    pub(crate) fn truncate(&mut self, region: u64, index: u64) -> Result<u64> {
        let mut dropped = 0;
        // SAFETY: `held`: the handle holds tables.
        check_call(|text, text_len| unsafe {
            raft_ffi_tables_truncate(self.0.as_ptr(), region, index, &mut dropped, text, text_len)
        })?;
        Ok(dropped)
    }

    /// Puts `key` with `value` into the table of a region, in place of an older value. Both are copied; `file` is the one to
    /// which they were written.
    ///
    /// # Errors
    ///
    /// `Full` where more than 2^64 - 1 records would be live in the queue; `Memory`. The tables are
    /// as they were then.
    pub(crate) fn put(
        &mut self,
        region: u64,
        key: &[u8],
        value: &[u8],
        file: FileId,
    ) -> Result<()> {
        // SAFETY: `held`: the handle holds tables.
        check_call(|text, text_len| unsafe {
            raft_ffi_tables_put(
                self.0.as_ptr(),
                region,
                key.as_ptr(),
                key.len(),
                value.as_ptr(),
                value.len(),
                file.queue == Queue::Rewrite,
                file.seq,
                text,
                text_len,
            )
        })
    }

    /// Deletes a key of a region and its value, if there is one. The only error is `Memory`: the
    /// tables are as they were then.
    pub(crate) fn delete(&mut self, region: u64, key: &[u8]) -> Result<()> {
        // SAFETY: `held`: the handle holds tables.
        check_call(|text, text_len| unsafe {
            raft_ffi_tables_delete(
                self.0.as_ptr(),
                region,
                key.as_ptr(),
                key.len(),
                text,
                text_len,
            )
        })
    }

    /// Moves entries of a region to the places in the rewrite queue that `entries` has, as far as
    /// they may move: with a `gate` those in append files numbered at or below it, without one
    /// those that are in rewrite files already.
    ///
    /// # Errors
    ///
    /// `InvalidArgument` where the indexes don't rise by one, or a place is in the append queue;
    /// `Corruption` where the indexes that both have begin behind the rewritten entries, or with a
    /// gate before the end of these; `Full`; `Memory`. The tables are as they were then.
    pub(crate) fn rewrite(
        &mut self,
        region: u64,
        entries: &[Entry],
        gate: Option<u64>,
    ) -> Result<()> {
        let run = to_entry_numbers(entries);
        // SAFETY: `held`: the handle holds tables.
        check_call(|text, text_len| unsafe {
            raft_ffi_tables_rewrite(
                self.0.as_ptr(),
                region,
                run.as_ptr(),
                run.len(),
                gate.into(),
                text,
                text_len,
            )
        })
    }

    /// Moves a key of a region with its value to the rewrite file numbered `seq`: from an append
    /// file only if there is a `gate` and the file is numbered at or below it, from a rewrite file
    /// always.
    ///
    /// # Errors
    ///
    /// `Corruption` where the key is in a later rewrite file; `Full`; `Memory`. The tables are as
    /// they were then.
    pub(crate) fn rewrite_key(
        &mut self,
        region: u64,
        key: &[u8],
        gate: Option<u64>,
        seq: u64,
    ) -> Result<()> {
        // SAFETY: `held`: the handle holds tables.
        check_call(|text, text_len| unsafe {
            raft_ffi_tables_rewrite_key(
                self.0.as_ptr(),
                region,
                key.as_ptr(),
                key.len(),
                gate.into(),
                seq,
                text,
                text_len,
            )
        })
    }

    /// Notes the numbers of the rewrite files in which a region's last atomic group begins and ends, `start` and `end`.
    /// `start` must be at most `end`. The only error is `Memory`: the tables are as they were then.
    pub(crate) fn set_atomic_group(&mut self, region: u64, start: u64, end: u64) -> Result<()> {
        assert!(start <= end, "an atomic group starts behind its end");
        // SAFETY: `held`, `range`: the handle holds tables, and the files are in order.
        check_memory_code(unsafe {
            raft_ffi_tables_atomic_group(self.0.as_ptr(), region, start, end)
        })
    }

    /// Removes the table of a region, and returns whether there was one. With `is_listed` it lists
    /// the region as cleaned. The only error is `Memory`: the tables are as they were then.
    pub(crate) fn remove(&mut self, region: u64, is_listed: bool) -> Result<bool> {
        let mut is_found = false;
        // SAFETY: `held`: the handle holds tables.
        check_memory_code(unsafe {
            raft_ffi_tables_remove(self.0.as_ptr(), region, is_listed, &mut is_found)
        })?;
        Ok(is_found)
    }

    /// Moves the table of a region, if there is one, to the tables `to`, where it replaces the one that the region has.
    ///
    /// # Errors
    ///
    /// `Full`, `Memory`. The table is lost then, and `to` is as it was.
    pub(crate) fn move_table(&mut self, region: u64, to: &mut TablesHandle) -> Result<()> {
        // SAFETY: `held`, `to`: both handles hold tables.
        check_call(|text, text_len| unsafe {
            raft_ffi_tables_move_table(self.0.as_ptr(), to.0.as_ptr(), region, text, text_len)
        })
    }

    /// Merges tables of the batches that follow, each into the table of its region.
    ///
    /// # Errors
    ///
    /// Those of [`Tables::merge_newer`](crate::Tables::merge_newer). Some tables are merged then,
    /// the others as they were, and the rest of `newer` is lost.
    pub(crate) fn merge_newer(&mut self, newer: TablesHandle) -> Result<()> {
        let newer = newer.into_raw();
        // SAFETY: `held`, `newer`: both handles hold tables, and the newer one is given away.
        check_call(|text, text_len| unsafe {
            raft_ffi_tables_merge_newer(self.0.as_ptr(), newer, text, text_len)
        })
    }

    /// Merges tables of the append queue into these of the rewrite queue, each into the table of
    /// its region.
    ///
    /// # Errors
    ///
    /// Those of [`Tables::merge_append`](crate::Tables::merge_append). Some tables are merged then,
    /// the others as they were, and the rest of `append` is lost.
    pub(crate) fn merge_append(&mut self, append: TablesHandle) -> Result<()> {
        let append = append.into_raw();
        // SAFETY: `held`, `append`: both handles hold tables, and the second one is given away.
        check_call(|text, text_len| unsafe {
            raft_ffi_tables_merge_append(self.0.as_ptr(), append, text, text_len)
        })
    }

    /// Applies the items of a batch of the append queue, in order.
    ///
    /// # Errors
    ///
    /// `Corruption`, `Full` or `Memory` at the first item that is refused. The items before it are
    /// applied then, and no others.
    pub(crate) fn apply_append(&mut self, items: ItemsHandle) -> Result<()> {
        let items = items.into_raw();
        // SAFETY: `held`, `items`: the handles hold tables and items, and the items are given away.
        check_call(|text, text_len| unsafe {
            raft_ffi_tables_apply_append(self.0.as_ptr(), items, text, text_len)
        })
    }

    /// Applies items that were written to the rewrite file numbered `seq` to move records, in
    /// order. `gate` says which places move, as for [`TablesHandle::rewrite`].
    ///
    /// # Errors
    ///
    /// `Corruption`, `Full` or `Memory` at the first item that is refused. The items before it are
    /// applied then, and no others.
    pub(crate) fn apply_rewrite(
        &mut self,
        items: ItemsHandle,
        gate: Option<u64>,
        seq: u64,
    ) -> Result<()> {
        let items = items.into_raw();
        // SAFETY: `held`, `items`: the handles hold tables and items, and the items are given away.
        check_call(|text, text_len| unsafe {
            raft_ffi_tables_apply_rewrite(self.0.as_ptr(), items, gate.into(), seq, text, text_len)
        })
    }

    /// Applies those items of a batch of the append queue whose regions belong to slot `number`, in
    /// order.
    ///
    /// # Errors
    ///
    /// `Corruption`, `Full` or `Memory` at the first item that is refused. The items before it are
    /// applied then, and no others. Where there is no memory for copies of the items none is
    /// applied.
    pub(crate) fn apply_slot_append(&mut self, number: usize, items: &ItemsHandle) -> Result<()> {
        check_call(|text, text_len| {
            // SAFETY: `held`, `items`: the handles hold tables and items.
            with_handle(&items.0, |items| unsafe {
                raft_ffi_slot_apply_append(self.0.as_ptr(), number, items, text, text_len)
            })
        })
    }

    /// Applies those items whose regions belong to slot `number`, in order. They were written to
    /// the rewrite file numbered `seq` to move records: `gate` says which places move, as for
    /// [`TablesHandle::rewrite`].
    ///
    /// # Errors
    ///
    /// `Corruption`, `Full` or `Memory` at the first item that is refused. The items before it are
    /// applied then, and no others. Where there is no memory for copies of the items none is
    /// applied.
    pub(crate) fn apply_slot_rewrite(
        &mut self,
        number: usize,
        items: &ItemsHandle,
        gate: Option<u64>,
        seq: u64,
    ) -> Result<()> {
        check_call(|text, text_len| {
            // SAFETY: `held`, `items`: the handles hold tables and items.
            with_handle(&items.0, |items| unsafe {
                raft_ffi_slot_apply_rewrite(
                    self.0.as_ptr(),
                    number,
                    items,
                    gate.into(),
                    seq,
                    text,
                    text_len,
                )
            })
        })
    }
}

impl Drop for TablesHandle {
    /// Frees the tables.
    fn drop(&mut self) {
        // SAFETY: `held`: the handle holds tables, which are given away.
        unsafe { raft_ffi_tables_drop(self.0.get()) }
    }
}
