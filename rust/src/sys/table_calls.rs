//! Declarations of the calls on tables, and on those of a slot.

use super::{EntryNumbers, Handle, Maybe, Status, SummaryNumbers};

unsafe extern "C" {
    /// Makes tables of no region in `tables`, which is empty before. Returns 0, or 11 (`Memory`):
    /// it stays empty then.
    pub(super) fn raft_ffi_tables_new(tables: *mut Handle) -> u32;
    /// Returns how many records are live in a queue.
    pub(super) fn raft_ffi_tables_live(tables: *mut Handle, is_rewrite: bool) -> usize;
    /// Returns whether a region has a table. If it has one, `summary` is set to what that has.
    pub(super) fn raft_ffi_tables_summary(
        tables: *mut Handle,
        region: u64,
        summary: *mut SummaryNumbers,
    ) -> bool;
    /// Lists in `regions` the regions that have a table, in rising order, as many as there is room
    /// for. Sets `count` to how many there are, which may be more. Returns 0, or 11 (`Memory`):
    /// nothing is set then.
    pub(super) fn raft_ffi_tables_regions(
        tables: *mut Handle,
        regions: *mut u64,
        regions_len: usize,
        count: *mut usize,
    ) -> u32;
    /// Lists in `regions` the regions that were cleaned, in order, as many as there is room for.
    /// Returns how many there are, which may be more.
    pub(super) fn raft_ffi_tables_cleaned(
        tables: *mut Handle,
        regions: *mut u64,
        regions_len: usize,
    ) -> usize;
    /// Returns whether a region has an entry with the index `index`. If it has one, `entry` is set
    /// to it.
    pub(super) fn raft_ffi_tables_entry(
        tables: *mut Handle,
        region: u64,
        index: u64,
        entry: *mut EntryNumbers,
    ) -> bool;
    /// Lists in `entries` the entries of a region from `begin` on and below `end`, as many as there
    /// is room for. Sets `count` to how many there are, which may be more. With a maximal size it
    /// stops before the first entry with which the total of lengths passes that size and exceeds
    /// the entry's own length. A region without a table has no entries.
    ///
    /// The code is 0, or 11 (`Memory`), or, where the range isn't empty, 7 (`EntryCompacted`), if
    /// it begins below the first entry, or 8 (`EntryNotFound`), if there are no entries or it ends
    /// above their end. Nothing is listed after an error.
    pub(super) fn raft_ffi_tables_entries(
        tables: *mut Handle,
        region: u64,
        begin: u64,
        end: u64,
        max_size: Maybe,
        entries: *mut EntryNumbers,
        entries_len: usize,
        count: *mut usize,
        text: *mut u8,
        text_len: usize,
    ) -> Status;
    /// Lists in `entries` the appended entries of a region, from the first one on while their file
    /// is numbered at or below `gate`, as many as there is room for. Sets `count` to how many there
    /// are, which may be more. Returns 0, or 11 (`Memory`): nothing is set then.
    pub(super) fn raft_ffi_tables_entries_before(
        tables: *mut Handle,
        region: u64,
        gate: u64,
        entries: *mut EntryNumbers,
        entries_len: usize,
        count: *mut usize,
    ) -> u32;
    /// Lists in `entries` the rewritten entries of a region, as many as there is room for. Sets
    /// `count` to how many there are, which may be more. Returns 0, or 11 (`Memory`): nothing is
    /// set then.
    pub(super) fn raft_ffi_tables_rewritten_entries(
        tables: *mut Handle,
        region: u64,
        entries: *mut EntryNumbers,
        entries_len: usize,
        count: *mut usize,
    ) -> u32;
    /// Returns whether `key` of a region has a value. If it has one, as many of its bytes are
    /// copied into `value` as there is room for, and `len` is set to how many it has, which may be
    /// more.
    pub(super) fn raft_ffi_tables_value(
        tables: *mut Handle,
        region: u64,
        key: *const u8,
        key_len: usize,
        value: *mut u8,
        value_len: usize,
        len: *mut usize,
    ) -> bool;
    /// Appends `entries`, new ones of the append queue, to the table of a region. The region's
    /// entries from their first index on are dropped before; without new entries nothing is
    /// changed. The code is 0, or that of the error, as 1 (`InvalidArgument`) if the indexes of
    /// `entries` don't rise by one. The tables are unchanged after an error.
    pub(super) fn raft_ffi_tables_append(
        tables: *mut Handle,
        region: u64,
        entries: *const EntryNumbers,
        entries_len: usize,
        text: *mut u8,
        text_len: usize,
    ) -> Status;
    /// Drops the entries of a region below `index`, and sets `dropped` to how many those were. The
    /// code is 0, or 11 (`Memory`). The tables are unchanged after an error.
    pub(super) fn raft_ffi_tables_compact(
        tables: *mut Handle,
        region: u64,
        index: u64,
        dropped: *mut u64,
        text: *mut u8,
        text_len: usize,
    ) -> Status;
    /// Drops the entries of a region from `index` on, and sets `dropped` to how many those were.
    /// The code is 0, or 11 (`Memory`). The tables are unchanged after an error.
    pub(super) fn raft_ffi_tables_truncate(
        tables: *mut Handle,
        region: u64,
        index: u64,
        dropped: *mut u64,
        text: *mut u8,
        text_len: usize,
    ) -> Status;
    /// Sets the value of `key` of a region to `value`, which was written to file `seq` of a queue.
    /// The code is 0; 9 (`Full`), if more than 2^64 - 1 records would be live in that queue; or 11
    /// (`Memory`). The tables are unchanged after an error.
    pub(super) fn raft_ffi_tables_put(
        tables: *mut Handle,
        region: u64,
        key: *const u8,
        key_len: usize,
        value: *const u8,
        value_len: usize,
        is_rewrite: bool,
        seq: u64,
        text: *mut u8,
        text_len: usize,
    ) -> Status;
    /// Deletes `key` of a region with its value. The code is 0, or 11 (`Memory`). The tables are
    /// unchanged after an error.
    pub(super) fn raft_ffi_tables_delete(
        tables: *mut Handle,
        region: u64,
        key: *const u8,
        key_len: usize,
        text: *mut u8,
        text_len: usize,
    ) -> Status;
    /// Moves entries of a region to new places. `entries` name the entries, with their places in
    /// the rewrite queue. Only those move that may: with a gate those in append files numbered at
    /// or below it, without one those that are rewritten already. The code is 0, or that of the
    /// error, as 1 (`InvalidArgument`) if the indexes of `entries` don't rise by one. The tables
    /// are unchanged after an error.
    pub(super) fn raft_ffi_tables_rewrite(
        tables: *mut Handle,
        region: u64,
        entries: *const EntryNumbers,
        entries_len: usize,
        gate: Maybe,
        text: *mut u8,
        text_len: usize,
    ) -> Status;
    /// Moves `key` of a region, with its value, to file `seq` of the rewrite queue. One in the
    /// append queue moves only if there is a gate and its file is numbered at or below it; one in
    /// the rewrite queue always does. The code is 0, or that of the error, as 2 (`Corruption`) if
    /// the pair is in a later rewrite file. The tables are unchanged after an error.
    pub(super) fn raft_ffi_tables_rewrite_key(
        tables: *mut Handle,
        region: u64,
        key: *const u8,
        key_len: usize,
        gate: Maybe,
        seq: u64,
        text: *mut u8,
        text_len: usize,
    ) -> Status;
    /// Sets the first and the last file of a region's atomic group, `start` and `end`, once the
    /// group's End is written. `start` is at most `end`. Returns 0, or 11 (`Memory`): the tables
    /// are unchanged then.
    pub(super) fn raft_ffi_tables_atomic_group(
        tables: *mut Handle,
        region: u64,
        start: u64,
        end: u64,
    ) -> u32;
    /// Removes the table of a region, if there is one, and subtracts its records from the live
    /// counts; `found` says whether there was one. With `is_listed` the region is also appended to
    /// the cleaned regions, even if it has no table.
    ///
    /// Returns 0, or 11 (`Memory`), which comes only with `is_listed`: the tables are unchanged
    /// then, and `found` isn't set.
    pub(super) fn raft_ffi_tables_remove(
        tables: *mut Handle,
        region: u64,
        is_listed: bool,
        found: *mut bool,
    ) -> u32;
    /// Merges `newer`, the tables of later batches, into `tables`, region by region. `newer` is
    /// gone then. The cleaned regions stay. The code is 0, or that of the error. After an error
    /// each region has its old table or the merged one; after 11 (`Memory`) that of one region may
    /// be lost.
    pub(super) fn raft_ffi_tables_merge_newer(
        tables: *mut Handle,
        newer: Handle,
        text: *mut u8,
        text_len: usize,
    ) -> Status;
    /// Merges `append`, appended tables, into `tables`, rewritten ones, region by region. `append`
    /// is gone then. The cleaned regions stay. The code is 0, or that of the error. After an error
    /// each region has its old table or the merged one; after 11 (`Memory`) that of one region may
    /// be lost.
    pub(super) fn raft_ffi_tables_merge_append(
        tables: *mut Handle,
        append: Handle,
        text: *mut u8,
        text_len: usize,
    ) -> Status;
    /// Writes `items`, those of a batch of the append queue, to the tables, in order. `items` is
    /// gone then. The code is 0, or that of the error of the first item that is refused: those
    /// before it are written then, and nothing else.
    pub(super) fn raft_ffi_tables_apply_append(
        tables: *mut Handle,
        items: Handle,
        text: *mut u8,
        text_len: usize,
    ) -> Status;
    /// Writes `items`, which were rewritten to file `seq` of the rewrite queue, to the tables, in
    /// order; `gate` says which places move, as for `raft_ffi_tables_rewrite`. `items` is gone
    /// then. The code is 0, or that of the error of the first item that is refused: those before it
    /// are written then, and nothing else.
    pub(super) fn raft_ffi_tables_apply_rewrite(
        tables: *mut Handle,
        items: Handle,
        gate: Maybe,
        seq: u64,
        text: *mut u8,
        text_len: usize,
    ) -> Status;
    /// Lists the pairs of a region that are in append files numbered at or below `gate`, in the
    /// order of the keys. `lens` gets the length of each key and of its value in turn, and `bytes`
    /// their bytes, one after another, each as far as there is room. `count` is set to how many
    /// lengths there are, and `len` to how many bytes, which may be more. With a gate of 2^64 - 1
    /// it lists all appended pairs. Returns 0, or 11 (`Memory`): nothing is set then.
    pub(super) fn raft_ffi_tables_pairs_before(
        tables: *mut Handle,
        region: u64,
        gate: u64,
        lens: *mut usize,
        lens_len: usize,
        count: *mut usize,
        bytes: *mut u8,
        bytes_len: usize,
        len: *mut usize,
    ) -> u32;
    /// Lists the rewritten pairs of a region, in the order of the keys, in `lens` and `bytes` as
    /// `raft_ffi_tables_pairs_before` does. Returns 0, or 11 (`Memory`): nothing is set then.
    pub(super) fn raft_ffi_tables_rewritten_pairs(
        tables: *mut Handle,
        region: u64,
        lens: *mut usize,
        lens_len: usize,
        count: *mut usize,
        bytes: *mut u8,
        bytes_len: usize,
        len: *mut usize,
    ) -> u32;
    /// Lists the pairs of a region whose key is at or above `start` and, with `is_bounded`, below
    /// `end`, in the order of the keys. They are listed in `lens` and `bytes` as
    /// `raft_ffi_tables_pairs_before` does. Returns 0, or 11 (`Memory`): nothing is set then.
    pub(super) fn raft_ffi_tables_scan(
        tables: *mut Handle,
        region: u64,
        start: *const u8,
        start_len: usize,
        end: *const u8,
        end_len: usize,
        is_bounded: bool,
        lens: *mut usize,
        lens_len: usize,
        count: *mut usize,
        bytes: *mut u8,
        bytes_len: usize,
        len: *mut usize,
    ) -> u32;
    /// Tests whether the tables would accept the items of `batch` once it is written to the append
    /// queue, at whatever place. It changes nothing. The code is 0 if they would. Else it is that
    /// of the error with which the first item that isn't accepted would be refused, or 11
    /// (`Memory`).
    pub(super) fn raft_ffi_tables_check_append(
        tables: *mut Handle,
        batch: *mut Handle,
        text: *mut u8,
        text_len: usize,
    ) -> Status;
    /// Moves the cleaned regions into `batch`, which is empty before: an open batch with a `Clean`
    /// for each, in order. The list of the tables is empty then. Returns 0, or 11 (`Memory`): the
    /// list is unchanged then, and `batch` stays empty.
    pub(super) fn raft_ffi_tables_cleaned_logs(tables: *mut Handle, batch: *mut Handle) -> u32;
    /// Moves the table of a region, if there is one, from `tables` to `to`, in place of the one
    /// that the region has there. Both lists of cleaned regions stay. The code is 0; 9 (`Full`), if
    /// more than 2^64 - 1 records would be live in a queue of `to`; or 11 (`Memory`). After an
    /// error the region's table is lost, and `to` is unchanged.
    pub(super) fn raft_ffi_tables_move_table(
        tables: *mut Handle,
        to: *mut Handle,
        region: u64,
        text: *mut u8,
        text_len: usize,
    ) -> Status;
    /// Tests whether the tables of slot `number` would accept the items of `batch` whose regions
    /// are of that slot, once it is written to the append queue, at whatever place. It changes
    /// nothing. The code is as that of `raft_ffi_tables_check_append`.
    pub(super) fn raft_ffi_slot_check_append(
        tables: *mut Handle,
        number: usize,
        batch: *mut Handle,
        text: *mut u8,
        text_len: usize,
    ) -> Status;
    /// Writes the items of the append queue whose regions are of slot `number` to the tables of
    /// that slot, in order. `items` stays as it is. The code is 0, or that of the error of the
    /// first item that is refused: those before it are written then, and nothing else; none if
    /// there is no memory for copies of the items.
    pub(super) fn raft_ffi_slot_apply_append(
        tables: *mut Handle,
        number: usize,
        items: *mut Handle,
        text: *mut u8,
        text_len: usize,
    ) -> Status;
    /// Writes the items whose regions are of slot `number`, and which were rewritten to file `seq`
    /// of the rewrite queue, to the tables of that slot, in order; `gate` says which places move,
    /// as for `raft_ffi_tables_rewrite`. `items` stays as it is. The code is 0, or that of the
    /// error of the first item that is refused: those before it are written then, and nothing else;
    /// none if there is no memory for copies of the items.
    pub(super) fn raft_ffi_slot_apply_rewrite(
        tables: *mut Handle,
        number: usize,
        items: *mut Handle,
        gate: Maybe,
        seq: u64,
        text: *mut u8,
        text_len: usize,
    ) -> Status;
    /// Frees the tables.
    pub(super) fn raft_ffi_tables_drop(tables: Handle);
}
