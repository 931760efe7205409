//! Declarations of the calls on an engine.

use super::{EntryNumbers, Handle, Maybe, Size, Status, SummaryNumbers};

/// An order, as the library fills it in.
#[repr(C)]
#[derive(Clone, Copy, Default)]
pub(super) struct OrderNumbers {
    /// The number of the order, from 0 on.
    pub(super) at: u64,
    /// The number of the file that is begun, or the length to which one is cut.
    pub(super) number: u64,
    /// How many bytes the order writes.
    pub(super) len: usize,
    /// What is to be done, from 0 on in the order of the variants of `Order`.
    pub(super) kind: u32,
    pub(super) is_rewrite: bool,
}

/// A `Block`, as the library fills it in.
#[repr(C)]
#[derive(Clone, Copy, Default)]
pub(super) struct PlaceNumbers {
    pub(super) seq: u64,
    pub(super) offset: u64,
    pub(super) len: usize,
    pub(super) is_rewrite: bool,
}

/// A tail that was cut off, as the library fills it in: `text_len` and `code` are those of the reason.
#[repr(C)]
#[derive(Clone, Copy, Default)]
pub(super) struct TailNumbers {
    pub(super) seq: u64,
    pub(super) offset: u64,
    pub(super) len: u64,
    pub(super) text_len: usize,
    pub(super) code: u32,
    pub(super) is_some: bool,
}

unsafe extern "C" {
    /// Makes an engine in `engine`, which is empty before, over files that two readers have read.
    /// `append` and `rewrite` are the numbers and lengths of each queue's files, oldest first.
    /// `appended` and `rewritten` have read their batches, in order, up to where the last file
    /// can't be read, and `append_rest` and `rewrite_rest` are the bytes from there on. Both
    /// readers are gone then.
    ///
    /// `mode` says what may be cut off: nothing for 0; all from there on for 2; what a crash can
    /// leave for any other. `append_tail` and `rewrite_tail` are set to what was cut off from each
    /// queue, with the reason in `append_reason` and `rewrite_reason`. The code is 0, or that of
    /// the error: `engine` stays empty then.
    pub(super) fn raft_ffi_engine_open(
        engine: *mut Handle,
        append: *const Size,
        append_len: usize,
        append_rest: *const u8,
        append_rest_len: usize,
        rewrite: *const Size,
        rewrite_len: usize,
        rewrite_rest: *const u8,
        rewrite_rest_len: usize,
        appended: Handle,
        rewritten: Handle,
        is_signed: bool,
        mode: u32,
        append_tail: *mut TailNumbers,
        append_reason: *mut u8,
        append_reason_len: usize,
        rewrite_tail: *mut TailNumbers,
        rewrite_reason: *mut u8,
        rewrite_reason_len: usize,
        text: *mut u8,
        text_len: usize,
    ) -> Status;
    /// Frees the engine. Orders that still wait are lost.
    pub(super) fn raft_ffi_engine_drop(engine: Handle);
    /// Tests whether the engine takes further calls that change it.
    pub(super) fn raft_ffi_engine_is_intact(engine: *mut Handle) -> bool;
    /// Writes `batch`, an open one, to the tables, and orders that it is put after the bytes of the
    /// last append file. `batch` is without items then. With `sync` a sync is ordered after it. The
    /// code is 0, or that of the error: 12 (`Failed`), if the engine wasn't intact. If the engine
    /// is intact after an error, it and the batch are as they were.
    pub(super) fn raft_ffi_engine_write(
        engine: *mut Handle,
        batch: *mut Handle,
        sync: bool,
        text: *mut u8,
        text_len: usize,
    ) -> Status;
    /// Orders a sync of the append queue, so that all that was written outlasts a crash once the
    /// sync is carried out. The code is 0; 12 (`Failed`), if the engine isn't intact; or that of
    /// the error with which no order can be noted: the engine isn't intact any more then.
    pub(super) fn raft_ffi_engine_sync(
        engine: *mut Handle,
        text: *mut u8,
        text_len: usize,
    ) -> Status;
    /// Orders that the last append file is synced and a new one begun, to which the next batch
    /// goes. The code is 0; 12 (`Failed`), if the engine isn't intact; 9 (`Full`), if no number of
    /// a file or of an order is left; or 11 (`Memory`).
    pub(super) fn raft_ffi_engine_rotate(
        engine: *mut Handle,
        text: *mut u8,
        text_len: usize,
    ) -> Status;
    /// Moves what the tables have in append files numbered at or below `gate` to the rewrite queue.
    /// The blocks that were lent are dropped, after an error too. The code is 0, or that of the
    /// error: 12 (`Failed`), if the engine isn't intact; 6 (`TryAgain`), if a block has to be read
    /// that isn't lent: the engine is intact then, and some regions may have moved.
    pub(super) fn raft_ffi_engine_rewrite(
        engine: *mut Handle,
        gate: u64,
        text: *mut u8,
        text_len: usize,
    ) -> Status;
    /// Moves what the tables have in rewrite files to a new one of them. The blocks that were lent
    /// are dropped, after an error too. The code is 0, or that of the error: 12 (`Failed`), if the
    /// engine isn't intact; 6 (`TryAgain`), if a block has to be read that isn't lent: the engine
    /// is intact then, and some regions may have moved.
    pub(super) fn raft_ffi_engine_rewrite_again(
        engine: *mut Handle,
        text: *mut u8,
        text_len: usize,
    ) -> Status;
    /// Orders that the append files which no table needs are deleted, the oldest first but never
    /// the last one, and sets `count` to how many. Before that it has the rewrite queue told what
    /// these files took away. The code is 0, or that of the error: 12 (`Failed`), if the engine
    /// isn't intact.
    pub(super) fn raft_ffi_engine_purge_expired_files(
        engine: *mut Handle,
        count: *mut usize,
        text: *mut u8,
        text_len: usize,
    ) -> Status;
    /// Orders that the rewrite files which no table needs are deleted, the oldest first but never
    /// the last one, and sets `count` to how many. Before that it orders a sync of both queues. The
    /// code is 0, or that of the error: 12 (`Failed`), if the engine isn't intact.
    pub(super) fn raft_ffi_engine_purge_rewrite_files(
        engine: *mut Handle,
        count: *mut usize,
        text: *mut u8,
        text_len: usize,
    ) -> Status;

    /// Takes the oldest order that waits. If there is room for its bytes it is taken: `order` says
    /// what to do, its bytes are in `bytes`, and `is_taken` is set. Else it still waits, `order`
    /// has its number (`at`) and how many bytes it has (`len`), and `is_taken` is false. Returns
    /// whether an order waited; if none did, `at` is how many were taken before.
    ///
    /// Orders are numbered from 0 on, and are to be carried out in turn. Whatever prefix of them
    /// was carried out when the machine crashes, what was synced in it is found again.
    pub(super) fn raft_ffi_engine_take_order(
        engine: *mut Handle,
        order: *mut OrderNumbers,
        bytes: *mut u8,
        bytes_len: usize,
        is_taken: *mut bool,
    ) -> bool;

    /// Lists in `places` the blocks, each once, that have to be read if records move: with a gate
    /// those of the append files numbered at or below it, without one those of the rewrite files.
    /// They are listed region by region, until the listed ones have `max_size` bytes, as many as
    /// there is room for. Sets `count` to how many there are, which may be more. Returns 0, or 11
    /// (`Memory`): nothing is set then. The list is a hint: no promise rests on it.
    pub(super) fn raft_ffi_engine_moving_blocks(
        engine: *mut Handle,
        gate: Maybe,
        max_size: usize,
        places: *mut PlaceNumbers,
        places_len: usize,
        count: *mut usize,
    ) -> u32;
    /// Lends the engine a copy of `bytes`, the block that stands at `offset` of file `seq`, until
    /// the next call that moves records. Returns 0, or 11 (`Memory`): the block isn't lent then.
    pub(super) fn raft_ffi_engine_lend(
        engine: *mut Handle,
        is_rewrite: bool,
        seq: u64,
        offset: u64,
        bytes: *const u8,
        bytes_len: usize,
    ) -> u32;

    /// Returns whether `key` of a region has a value. If it has one, as many of its bytes are
    /// copied into `value` as there is room for, and `len` is set to how many it has, which may be
    /// more.
    pub(super) fn raft_ffi_engine_value(
        engine: *mut Handle,
        region: u64,
        key: *const u8,
        key_len: usize,
        value: *mut u8,
        value_len: usize,
        len: *mut usize,
    ) -> bool;
    /// Returns whether a region has a table. If it has one, `summary` is set to what that has.
    pub(super) fn raft_ffi_engine_summary(
        engine: *mut Handle,
        region: u64,
        summary: *mut SummaryNumbers,
    ) -> bool;
    /// Returns whether a region has entries. If it has, `index` is set to their least index.
    pub(super) fn raft_ffi_engine_first_index(
        engine: *mut Handle,
        region: u64,
        index: *mut u64,
    ) -> bool;
    /// Returns whether a region has entries. If it has, `index` is set to their greatest index.
    pub(super) fn raft_ffi_engine_last_index(
        engine: *mut Handle,
        region: u64,
        index: *mut u64,
    ) -> bool;
    /// Returns whether a region has an entry with the index `index`. If it has one, `entry` is set
    /// to it.
    pub(super) fn raft_ffi_engine_entry(
        engine: *mut Handle,
        region: u64,
        index: u64,
        entry: *mut EntryNumbers,
    ) -> bool;
    /// Lists in `entries` the entries of a region from `begin` on and below `end`, and sets `count`
    /// to how many there are, as `raft_ffi_tables_entries` does. Its code is as there.
    pub(super) fn raft_ffi_engine_entries(
        engine: *mut Handle,
        region: u64,
        begin: u64,
        end: u64,
        max_size: Maybe,
        entries: *mut EntryNumbers,
        entries_len: usize,
        count: *mut usize,
        text: *mut u8,
        text_len: usize,
    ) -> Status;
    /// Lists the pairs of a region whose key is at or above `start` and, with `is_bounded`, below
    /// `end`, in the order of the keys. They are listed in `lens` and `bytes` as
    /// `raft_ffi_tables_pairs_before` does. Returns 0, or 11 (`Memory`): nothing is set then.
    pub(super) fn raft_ffi_engine_scan(
        engine: *mut Handle,
        region: u64,
        start: *const u8,
        start_len: usize,
        end: *const u8,
        end_len: usize,
        is_bounded: bool,
        lens: *mut usize,
        lens_len: usize,
        count: *mut usize,
        bytes: *mut u8,
        bytes_len: usize,
        len: *mut usize,
    ) -> u32;
    /// Lists in `regions` the regions that have a table, in rising order, as many as there is room
    /// for. Sets `count` to how many there are, which may be more. Returns 0, or 11 (`Memory`):
    /// nothing is set then.
    pub(super) fn raft_ffi_engine_regions(
        engine: *mut Handle,
        regions: *mut u64,
        regions_len: usize,
        count: *mut usize,
    ) -> u32;
    /// Returns how many records of the engine's tables are live in a queue.
    pub(super) fn raft_ffi_engine_live(engine: *mut Handle, is_rewrite: bool) -> usize;

    /// Checks `bytes`, a whole entry block, against its checksum, and sets `len` to how many of
    /// them, from the first one on, are its entry bytes: 0 for a block without bytes. The code is
    /// 0; 2 (`Corruption`), if they aren't such a block; or 11 (`Memory`). `len` isn't set after an
    /// error.
    pub(super) fn raft_ffi_block_entries(
        bytes: *const u8,
        bytes_len: usize,
        len: *mut usize,
        text: *mut u8,
        text_len: usize,
    ) -> Status;
}
