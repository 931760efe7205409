//! Handles of engines.

use super::engine_calls::{
    OrderNumbers, PlaceNumbers, raft_ffi_block_entries, raft_ffi_engine_drop,
    raft_ffi_engine_entries, raft_ffi_engine_entry, raft_ffi_engine_first_index,
    raft_ffi_engine_is_intact, raft_ffi_engine_last_index, raft_ffi_engine_lend,
    raft_ffi_engine_live, raft_ffi_engine_moving_blocks, raft_ffi_engine_purge_expired_files,
    raft_ffi_engine_purge_rewrite_files, raft_ffi_engine_regions, raft_ffi_engine_rewrite,
    raft_ffi_engine_rewrite_again, raft_ffi_engine_rotate, raft_ffi_engine_scan,
    raft_ffi_engine_summary, raft_ffi_engine_sync, raft_ffi_engine_take_order,
    raft_ffi_engine_value, raft_ffi_engine_write,
};
use super::{
    EntryNumbers, Handle, LogBatchHandle, PackedPairs, Status, SummaryNumbers, check_call,
    check_memory_code, fill_list, fill_list_with_room, fill_packed_pairs, make_room, to_entries,
};
use crate::{Block, Entry, FileId, Queue, Result, Summary};
use std::mem;
use std::ops::Range;
use std::sync::Arc;

/// How much room, in bytes, the first call for a value has. A value that isn't longer, as most aren't, is copied by one
/// call.
const MOST_VALUES: usize = 64;

/// A change that is to be made to the files of a queue.
#[derive(Debug)]
pub(crate) enum Order {
    /// Write the bytes at the end of the last file.
    Write(Queue, Arc<Vec<u8>>),
    /// Make the file, which becomes the last one of its queue.
    Begin(FileId),
    /// Make all that was done to the queue safe from a crash.
    Sync(Queue),
    /// Delete the oldest file of the queue.
    DeleteOldest(Queue),
    /// Cut the last file of the queue to a length in bytes, if it is longer.
    Cut(Queue, u64),
}

/// Owns an engine of the library: tables, and orders of changes of its files.
#[derive(Debug)]
pub(crate) struct EngineHandle {
    handle: Handle,
    /// The number of the order that comes next.
    next_order: u64,
}

// SAFETY: the library proves that its handle may move to another thread.
unsafe impl Send for EngineHandle {}

impl EngineHandle {
    /// Makes the owner of the engine that `handle` holds. `handle` must not be empty, and must have no other owner.
    pub(super) fn from_raw(handle: Handle) -> EngineHandle {
        EngineHandle {
            handle,
            next_order: 0,
        }
    }

    /// Tests whether the engine takes further calls: every batch whose bytes were ordered was also applied to the
    /// tables.
    pub(crate) fn is_intact(&mut self) -> bool {
        // SAFETY: `held`: the handle holds an engine.
        unsafe { raft_ffi_engine_is_intact(&mut self.handle) }
    }

    /// Applies an open batch to the tables, and orders that its bytes are written to the last append file. The batch is
    /// empty and open then.
    ///
    /// # Errors
    ///
    /// `InvalidArgument` for a batch that isn't open; those of the library. Engine and batch are as they were then,
    /// unless the engine isn't intact any more.
    pub(crate) fn write(&mut self, batch: &mut LogBatchHandle) -> Result<()> {
        batch.check_open()?;
        // SAFETY: `held`, `batch`, `open`: the handles hold an engine and an open batch.
        check_call(|text, text_len| unsafe {
            raft_ffi_engine_write(&mut self.handle, batch.as_ptr(), false, text, text_len)
        })
    }

    /// Orders a sync of the append queue, so that no crash takes away what was written.
    ///
    /// # Errors
    ///
    /// `Failed` where the engine isn't intact; `Full` or `Memory` where no further order can be kept: the engine isn't
    /// intact then.
    pub(crate) fn sync(&mut self) -> Result<()> {
        // SAFETY: `held`: the handle holds an engine.
        self.make_call(|engine, text, text_len| unsafe {
            raft_ffi_engine_sync(engine, text, text_len)
        })
    }

    /// Orders that the last append file is synced, and the next one begun.
    ///
    /// # Errors
    ///
    /// `Failed` where the engine isn't intact; `Full` where no number of a file or of an order is left; `Memory`.
    pub(crate) fn rotate(&mut self) -> Result<()> {
        // SAFETY: `held`: the handle holds an engine.
        self.make_call(|engine, text, text_len| unsafe {
            raft_ffi_engine_rotate(engine, text, text_len)
        })
    }

    /// Moves all records that the tables have in append files numbered at or below `gate` to the rewrite queue, and
    /// drops the lent blocks.
    ///
    /// # Errors
    ///
    /// `TryAgain` where a block has to be read that isn't lent; those of the library. The records of some regions may
    /// have moved then.
    pub(crate) fn rewrite(&mut self, gate: u64) -> Result<()> {
        // SAFETY: `held`: the handle holds an engine.
        self.make_call(|engine, text, text_len| unsafe {
            raft_ffi_engine_rewrite(engine, gate, text, text_len)
        })
    }

    /// Moves all records that the tables have in rewrite files to new ones, and drops the lent blocks.
    ///
    /// # Errors
    ///
    /// `TryAgain` where a block has to be read that isn't lent; those of the library. The records of some regions may
    /// have moved then.
    pub(crate) fn rewrite_again(&mut self) -> Result<()> {
        // SAFETY: `held`: the handle holds an engine.
        self.make_call(|engine, text, text_len| unsafe {
            raft_ffi_engine_rewrite_again(engine, text, text_len)
        })
    }

    /// Orders that the append files which no table needs are deleted, and returns how many.
    ///
    /// # Errors
    ///
    /// `Failed` where the engine isn't intact; `Full` where 2^56 bytes or more would have to be written to the rewrite
    /// queue before, or its last file has more than 2^63 bytes; `Memory`.
    pub(crate) fn purge_expired_files(&mut self) -> Result<usize> {
        let mut count = 0;
        // SAFETY: `held`: the handle holds an engine.
        self.make_call(|engine, text, text_len| unsafe {
            raft_ffi_engine_purge_expired_files(engine, &mut count, text, text_len)
        })?;
        Ok(count)
    }

    /// Orders that the rewrite files which no table needs are deleted, and returns how many.
    ///
    /// # Errors
    ///
    /// `Failed` where the engine isn't intact; `Full` where 2^56 bytes or more would have to be written to the rewrite
    /// queue before, or its last file has more than 2^63 bytes; `Memory`.
    pub(crate) fn purge_rewrite_files(&mut self) -> Result<usize> {
        let mut count = 0;
        // SAFETY: `held`: the handle holds an engine.
        self.make_call(|engine, text, text_len| unsafe {
            raft_ffi_engine_purge_rewrite_files(engine, &mut count, text, text_len)
        })?;
        Ok(count)
    }

    /// Makes `call`, a call of the library, which gets the engine's handle, and room for the text of its error.
    ///
    /// # Errors
    ///
    /// The error of the call.
    fn make_call(
        &mut self,
        call: impl FnOnce(*mut Handle, *mut u8, usize) -> Status,
    ) -> Result<()> {
        check_call(|text, text_len| call(&mut self.handle, text, text_len))
    }

    /// Takes all orders, and returns them in their order. Orders that follow one another and write to the same queue become
    /// one. The only error is `Memory`: the orders that were taken by then are lost.
    pub(crate) fn take_orders(&mut self) -> Result<Vec<Order>> {
        let mut orders = Vec::new();
        let mut none = Vec::new();
        loop {
            let bytes = match orders.last_mut() {
                Some(Order::Write(_, bytes)) => Arc::make_mut(bytes), // it is nobody else's yet
                _ => &mut none,
            };
            let len = bytes.len();
            let Some(order) = self.take_order(bytes)? else {
                return Ok(orders);
            };
            let queue = queue_from_flag(order.is_rewrite);
            match (order.kind, orders.last_mut()) {
                (0, Some(Order::Write(last, _))) if *last == queue => {}
                (0, Some(Order::Write(_, bytes))) => {
                    let bytes = Arc::make_mut(bytes).split_off(len);
                    orders.push(Order::Write(queue, bytes.into()));
                }
                (0, _) => orders.push(Order::Write(queue, mem::take(&mut none).into())),
                (1, _) => orders.push(Order::Begin(FileId::new(queue, order.number))),
                (2, _) => orders.push(Order::Sync(queue)),
                (3, _) => orders.push(Order::DeleteOldest(queue)),
                _ => orders.push(Order::Cut(queue, order.number)),
            }
        }
    }

    /// Takes the oldest order, and appends the bytes that it writes to `bytes`; `None` where no order waits. The only
    /// error is `Memory`: the order still waits then.
    fn take_order(&mut self, bytes: &mut Vec<u8>) -> Result<Option<OrderNumbers>> {
        let len = bytes.len();
        loop {
            let (mut order, mut is_taken) = (OrderNumbers::default(), false);
            let room = &mut bytes[len..];
            // SAFETY: `held`: the handle holds an engine.
            let is_found = unsafe {
                raft_ffi_engine_take_order(
                    &mut self.handle,
                    &mut order,
                    room.as_mut_ptr(),
                    room.len(),
                    &mut is_taken,
                )
            };
            if !is_found {
                assert_eq!(order.at, self.next_order, "an order is left out");
                return Ok(None);
            }
            if is_taken {
                assert_eq!(
                    order.at, self.next_order,
                    "an order is left out, or comes twice"
                );
                self.next_order += 1;
                return Ok(Some(order));
            }
            make_room(bytes, len + order.len)?;
        }
    }

    /// Returns the places of the blocks that the next call to move records reads: with a `gate` those of append files
    /// numbered at or below it, without one those of rewrite files. They are those of whole regions, until they have
    /// `max_size` bytes. The only error is `Memory`.
    pub(crate) fn moving_blocks(
        &mut self,
        gate: Option<u64>,
        max_size: usize,
    ) -> Result<Vec<Block>> {
        let places = fill_list(|room, len, count| {
            // SAFETY: `held`: the handle holds an engine.
            check_memory_code(unsafe {
                raft_ffi_engine_moving_blocks(
                    &mut self.handle,
                    gate.into(),
                    max_size,
                    room,
                    len,
                    count,
                )
            })
        })?;
        Ok(places.into_iter().map(Block::from).collect())
    }

    /// Lends the bytes of a block to the next call that moves records. The library copies them. The only error is `Memory`:
    /// the block isn't lent then.
    pub(crate) fn lend_block(&mut self, block: Block, bytes: &[u8]) -> Result<()> {
        let is_rewrite = block.file.queue == Queue::Rewrite;
        // SAFETY: `held`: the handle holds an engine.
        check_memory_code(unsafe {
            raft_ffi_engine_lend(
                &mut self.handle,
                is_rewrite,
                block.file.seq,
                block.offset,
                bytes.as_ptr(),
                bytes.len(),
            )
        })
    }

    /// Returns a copy of the value of a region's key; `None` where it has none. The only error is `Memory`.
    pub(crate) fn value(&mut self, region: u64, key: &[u8]) -> Result<Option<Vec<u8>>> {
        let mut is_found = false;
        let mut room = Vec::new();
        make_room(&mut room, MOST_VALUES)?;
        let value = fill_list_with_room(room, |room, len, count| {
            // SAFETY: `held`: the handle holds an engine.
            is_found = unsafe {
                raft_ffi_engine_value(
                    &mut self.handle,
                    region,
                    key.as_ptr(),
                    key.len(),
                    room,
                    len,
                    count,
                )
            };
            Ok(())
        })?;
        Ok(is_found.then_some(value))
    }

    /// Returns the keys of a region from `start` on and, with an `end`, below it, with their values, in the order of
    /// the keys. The only error is `Memory`.
    pub(crate) fn scan(
        &mut self,
        region: u64,
        start: &[u8],
        end: Option<&[u8]>,
    ) -> Result<PackedPairs> {
        let (is_bounded, end) = (end.is_some(), end.unwrap_or_default());
        fill_packed_pairs(|lens, lens_len, count, bytes, bytes_len, len| {
            // SAFETY: `held`: the handle holds an engine.
            check_memory_code(unsafe {
                raft_ffi_engine_scan(
                    &mut self.handle,
                    region,
                    start.as_ptr(),
                    start.len(),
                    end.as_ptr(),
                    end.len(),
                    is_bounded,
                    lens,
                    lens_len,
                    count,
                    bytes,
                    bytes_len,
                    len,
                )
            })
        })
    }

    /// Returns how many records the table of a region has, and which files it needs; `None` where there is no table.
    pub(crate) fn summary(&mut self, region: u64) -> Option<Summary> {
        let mut summary = SummaryNumbers::default();
        // SAFETY: `held`: the handle holds an engine.
        let is_found = unsafe { raft_ffi_engine_summary(&mut self.handle, region, &mut summary) };
        is_found.then(|| summary.into())
    }

    /// Returns the least index of a region's entries; `None` where it has no entries.
    pub(crate) fn first_index(&mut self, region: u64) -> Option<u64> {
        let mut index = 0;
        // SAFETY: `held`: the handle holds an engine.
        let is_found = unsafe { raft_ffi_engine_first_index(&mut self.handle, region, &mut index) };
        is_found.then_some(index)
    }

    /// Returns the greatest index of a region's entries; `None` where it has no entries.
    pub(crate) fn last_index(&mut self, region: u64) -> Option<u64> {
        let mut index = 0;
        // SAFETY: `held`: the handle holds an engine.
        let is_found = unsafe { raft_ffi_engine_last_index(&mut self.handle, region, &mut index) };
        is_found.then_some(index)
    }

    /// Returns the entry of a region at an index, with its place; `None` where the region has no entry there.
    pub(crate) fn entry(&mut self, region: u64, index: u64) -> Option<Entry> {
        let mut entry = EntryNumbers::default();
        // SAFETY: `held`: the handle holds an engine.
        let is_found =
            unsafe { raft_ffi_engine_entry(&mut self.handle, region, index, &mut entry) };
        is_found.then(|| entry.into())
    }

    /// Returns the entries of a range of a region's indexes with their places, in order. With a `max_size` these are
    /// the first ones, as many as have at most so many bytes together; the first one that has bytes is returned
    /// whatever its size.
    ///
    /// # Errors
    ///
    /// `EntryCompacted` or `EntryNotFound` where the region doesn't have all of a range that isn't empty; `Memory`.
    pub(crate) fn entries(
        &mut self,
        region: u64,
        range: Range<u64>,
        max_size: Option<u64>,
    ) -> Result<Vec<Entry>> {
        let list = fill_list(|room, len, count| {
            // SAFETY: `held`: the handle holds an engine.
            check_call(|text, text_len| unsafe {
                raft_ffi_engine_entries(
                    &mut self.handle,
                    region,
                    range.start,
                    range.end,
                    max_size.into(),
                    room,
                    len,
                    count,
                    text,
                    text_len,
                )
            })
        })?;
        Ok(to_entries(list))
    }

    /// Returns the numbers of the regions that have a table, in rising order. The only error is `Memory`.
    pub(crate) fn regions(&mut self) -> Result<Vec<u64>> {
        fill_list(|room, len, count| {
            // SAFETY: `held`: the handle holds an engine.
            check_memory_code(unsafe {
                raft_ffi_engine_regions(&mut self.handle, room, len, count)
            })
        })
    }

    /// Returns how many records are live in a queue.
    pub(crate) fn count_live(&mut self, queue: Queue) -> usize {
        // SAFETY: `held`: the handle holds an engine.
        unsafe { raft_ffi_engine_live(&mut self.handle, queue == Queue::Rewrite) }
    }
}

impl Drop for EngineHandle {
    /// Frees the engine. Orders that weren't taken are lost.
    fn drop(&mut self) {
        // SAFETY: `held`: the handle holds an engine, which is given away.
        unsafe { raft_ffi_engine_drop(self.handle) }
    }
}

impl From<PlaceNumbers> for Block {
    /// Makes the block whose place the library has filled in.
    fn from(place: PlaceNumbers) -> Block {
        Block {
            file: FileId::new(queue_from_flag(place.is_rewrite), place.seq),
            offset: place.offset,
            len: place.len,
        }
    }
}

/// Returns the rewrite queue if `is_rewrite` is true, else the append queue.
fn queue_from_flag(is_rewrite: bool) -> Queue {
    if is_rewrite {
        Queue::Rewrite
    } else {
        Queue::Append
    }
}

/// Checks a whole entry block against its checksum, and returns how many of its bytes, from the first one on, are entry
/// bytes: 0 for a block without bytes.
///
/// # Errors
///
/// `Corruption` where it has one to four bytes, or the checksum is another one; `Memory`.
pub(crate) fn check_entry_block(bytes: &[u8]) -> Result<usize> {
    let mut len = 0;
    // SAFETY: the bytes are lent for the call.
    check_call(|text, text_len| unsafe {
        raft_ffi_block_entries(bytes.as_ptr(), bytes.len(), &mut len, text, text_len)
    })?;
    Ok(len)
}
