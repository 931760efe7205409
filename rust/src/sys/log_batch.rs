//! Handles of log batches that are made, to be written.

use super::{
    File, Handle, ItemsHandle, Packed, Status, check_call, check_memory_code, fill_list,
    with_handle,
};
use crate::{Error, FileId, LogFile, Queue, Result, Stage};
use std::cell::Cell;
use std::mem;

unsafe extern "C" {
    /// Makes an open batch without items in `batch`, which is empty before. Returns 0, or 11
    /// (`Memory`): `batch` stays empty then.
    fn raft_ffi_batch_new(batch: *mut Handle) -> u32;
    /// Returns how far a batch has come: 0 while it is open, 1 once its bytes are made, 2 once they
    /// are signed.
    fn raft_ffi_batch_stage(batch: *mut Handle) -> u32;
    /// Returns about how many bytes a batch has or will have: at least as many as it will, if all
    /// region ids and indexes are below 2^56, unless it is too long to be encoded.
    fn raft_ffi_batch_size(batch: *mut Handle) -> usize;
    /// Adds entries of a region to an open batch. Their indexes rise by one from `first` on, all
    /// below 2^64. The bytes of the entries stand in `bytes`, one after another, and `lens` says
    /// how many each has; what stands after them isn't looked at. Without entries nothing is added.
    ///
    /// The code is 0; 9 (`Full`), if the batch would have 2^31 entry bytes or more; or 11
    /// (`Memory`). The batch is unchanged after an error.
    fn raft_ffi_batch_add_entries(
        batch: *mut Handle,
        region: u64,
        first: u64,
        lens: *const usize,
        lens_len: usize,
        bytes: *const u8,
        bytes_len: usize,
        text: *mut u8,
        text_len: usize,
    ) -> Status;
    /// Adds to an open batch that all records of a region are removed. Returns 0, or 11 (`Memory`):
    /// the batch is unchanged then.
    fn raft_ffi_batch_clean(batch: *mut Handle, region: u64) -> u32;
    /// Adds to an open batch that the entries of a region below `index` are removed. Returns 0, or
    /// 11 (`Memory`): the batch is unchanged then.
    fn raft_ffi_batch_compact(batch: *mut Handle, region: u64, index: u64) -> u32;
    /// Adds to an open batch that the entries of a region from `index` on are removed. Returns 0,
    /// or 11 (`Memory`): the batch is unchanged then.
    fn raft_ffi_batch_truncate(batch: *mut Handle, region: u64, index: u64) -> u32;
    /// Adds to an open batch that `key` of a region gets `value`. The code is 0; 1
    /// (`InvalidArgument`), if the key is that of the group markers; or 11 (`Memory`). The batch is
    /// unchanged after an error.
    fn raft_ffi_batch_put(
        batch: *mut Handle,
        region: u64,
        key: *const u8,
        key_len: usize,
        value: *const u8,
        value_len: usize,
        text: *mut u8,
        text_len: usize,
    ) -> Status;
    /// Adds to an open batch that `key` of a region is deleted. Returns 0, or 11 (`Memory`): the
    /// batch is unchanged then.
    fn raft_ffi_batch_delete(
        batch: *mut Handle,
        region: u64,
        key: *const u8,
        key_len: usize,
    ) -> u32;
    /// Moves all items of `more`, an open batch, to the end of `batch`, an open one too; `more` is
    /// then without items. The code is 0; 9 (`Full`), if both have 2^31 entry bytes or more
    /// together; or 11 (`Memory`). Both are unchanged after an error.
    fn raft_ffi_batch_merge(
        batch: *mut Handle,
        more: *mut Handle,
        text: *mut u8,
        text_len: usize,
    ) -> Status;
    /// Makes the bytes of an open batch, to which nothing can be added from then on, and sets `len`
    /// to how many they are: 0 without items. The code is 0; 9 (`Full`), if they would be 2^56 or
    /// more; or 11 (`Memory`). The batch is unchanged after an error.
    fn raft_ffi_batch_finish(
        batch: *mut Handle,
        len: *mut usize,
        text: *mut u8,
        text_len: usize,
    ) -> Status;
    /// Signs the bytes of a batch, which isn't open any more, for `file`. It may be signed again,
    /// for another file.
    fn raft_ffi_batch_sign(batch: *mut Handle, file: File);
    /// Copies the bytes of a signed batch into `bytes`, as many as there is room for. Returns how
    /// many the batch has, which may be more than were copied: 0 without items.
    fn raft_ffi_batch_bytes(batch: *mut Handle, bytes: *mut u8, bytes_len: usize) -> usize;
    /// Gives each entry and each key value of a signed batch its place: the batch was written to
    /// file `seq` of a queue, from `offset` on, which is at most 2^64 - 17, and has `len` bytes
    /// there.
    fn raft_ffi_batch_written(
        batch: *mut Handle,
        is_rewrite: bool,
        seq: u64,
        offset: u64,
        len: usize,
    );
    /// Takes the items out of a batch, at whatever stage, into `items`, which is empty before. The
    /// batch is gone then, after an error too. Returns 0, or 11 (`Memory`): `items` stays empty
    /// then.
    fn raft_ffi_batch_into_items(batch: Handle, items: *mut Handle) -> u32;
    /// Frees the batch.
    fn raft_ffi_batch_drop(batch: Handle);
}

/// The greatest offset at which a batch may have been written.
const LAST_OFFSET: u64 = u64::MAX - 16;

/// Owns a log batch of the library that is made, to be written.
#[derive(Debug)]
pub(crate) struct LogBatchHandle(pub(super) Cell<Handle>);

// SAFETY: the library proves that its handle may move to another thread; the cell makes this type no `Sync`.
unsafe impl Send for LogBatchHandle {}

impl LogBatchHandle {
    /// Makes an open batch without items. The only error is `Memory`.
    pub(crate) fn new() -> Result<LogBatchHandle> {
        let mut handle = Handle::EMPTY;
        // SAFETY: `empty`: the handle is empty.
        check_memory_code(unsafe { raft_ffi_batch_new(&mut handle) })?;
        Ok(LogBatchHandle::from_raw(handle))
    }

    /// Makes the owner of the batch that `handle` holds. `handle` must not be empty, and must have no other owner.
    pub(super) fn from_raw(handle: Handle) -> LogBatchHandle {
        LogBatchHandle(Cell::new(handle))
    }

    /// Returns a pointer to the library's handle, for a call that changes the batch.
    pub(super) fn as_ptr(&mut self) -> *mut Handle {
        self.0.as_ptr()
    }

    /// Gives up the ownership, and returns the library's handle. The caller has to free its value, or to give it to the
    /// library.
    fn into_raw(self) -> Handle {
        let handle = self.0.get();
        mem::forget(self);
        handle
    }

    /// Returns how far the batch has come: open, encoded or signed.
    pub(crate) fn stage(&self) -> Stage {
        // SAFETY: `held`: the handle holds a batch.
        match with_handle(&self.0, |batch| unsafe { raft_ffi_batch_stage(batch) }) {
            0 => Stage::Open,
            1 => Stage::Encoded,
            _ => Stage::Signed,
        }
    }

    /// Checks that the batch is open, so that items can be added.
    ///
    /// # Errors
    ///
    /// `InvalidArgument` where it isn't.
    pub(super) fn check_open(&self) -> Result<()> {
        match self.stage() {
            Stage::Open => Ok(()),
            _ => Err(Error::invalid_argument("the batch is no longer open")),
        }
    }

    /// Checks that the bytes of the batch are made and signed.
    ///
    /// # Errors
    ///
    /// `InvalidArgument` where they aren't.
    fn check_signed(&self) -> Result<()> {
        match self.stage() {
            Stage::Signed => Ok(()),
            _ => Err(Error::invalid_argument("the batch isn't signed")),
        }
    }

    /// Returns about how many bytes the batch will have, or exactly how many it has once they are
    /// made; 0 without items.
    pub(crate) fn approximate_size(&self) -> usize {
        // SAFETY: `held`: the handle holds a batch.
        with_handle(&self.0, |batch| unsafe { raft_ffi_batch_size(batch) })
    }

    /// Adds the entries of `packed` as one item of `region`, the first of them at the index `first`.
    ///
    /// # Errors
    ///
    /// Those of [`LogBatchHandle::add_entries`].
    pub(crate) fn add_packed(&mut self, region: u64, first: u64, packed: &Packed) -> Result<()> {
        let (lens, bytes) = packed.lens_and_bytes();
        self.add_entries(region, first, lens, bytes)
    }

    /// Adds a single entry of `region` at `index`, whose bytes are `entry`, as one item. The bytes are copied.
    ///
    /// # Errors
    ///
    /// Those of [`LogBatchHandle::add_entries`].
    pub(crate) fn add_entry(&mut self, region: u64, index: u64, entry: &[u8]) -> Result<()> {
        self.add_entries(region, index, &[entry.len()], entry)
    }

    /// Adds entries of `region` as one item. Their indexes rise by one from `first` on. Their bytes stand in `bytes`, one
    /// behind the other, and are copied; `lens` has the length of each. Without entries nothing is added.
    ///
    /// # Errors
    ///
    /// `InvalidArgument` where the batch isn't open, or an index would be 2^64 - 1 or more; `Full`
    /// where the batch would have 2^31 entry bytes or more; `Memory`. The batch is as it was then.
    fn add_entries(&mut self, region: u64, first: u64, lens: &[usize], bytes: &[u8]) -> Result<()> {
        self.check_open()?;
        if first.checked_add(lens.len() as u64).is_none() {
            return Err(Error::invalid_argument(
                "an index would be 2^64 - 1 or more",
            ));
        }
        // SAFETY: `held`, `open`, `indexes`, `strings`: the handle holds an open batch, the last index is below 2^64
        // - 1, and the lengths are those of the bytes.
        check_call(|text, text_len| unsafe {
            raft_ffi_batch_add_entries(
                self.0.as_ptr(),
                region,
                first,
                lens.as_ptr(),
                lens.len(),
                bytes.as_ptr(),
                bytes.len(),
                text,
                text_len,
            )
        })
    }

    /// Adds a clean of `region`, which removes all its records.
    ///
    /// # Errors
    ///
    /// `InvalidArgument` where the batch isn't open; `Memory`. The batch is as it was then.
    pub(crate) fn clean(&mut self, region: u64) -> Result<()> {
        self.check_open()?;
        // SAFETY: `held`, `open`: the handle holds an open batch.
        check_memory_code(unsafe { raft_ffi_batch_clean(self.0.as_ptr(), region) })
    }

    /// Adds a compaction of `region`, which removes its entries below `index`.
    ///
    /// # Errors
    ///
    /// `InvalidArgument` where the batch isn't open; `Memory`. The batch is as it was then.
    pub(crate) fn compact(&mut self, region: u64, index: u64) -> Result<()> {
        self.check_open()?;
        // SAFETY: `held`, `open`: the handle holds an open batch.
        check_memory_code(unsafe { raft_ffi_batch_compact(self.0.as_ptr(), region, index) })
    }

    /// Adds a truncation of `region`, which removes its entries from `index` on.
    ///
    /// # Errors
    ///
    /// `InvalidArgument` where the batch isn't open; `Memory`. The batch is as it was then.
    pub(crate) fn truncate(&mut self, region: u64, index: u64) -> Result<()> {
        self.check_open()?;
        // SAFETY: `held`, `open`: the handle holds an open batch.
        check_memory_code(unsafe { raft_ffi_batch_truncate(self.0.as_ptr(), region, index) })
    }

    /// Adds a put of `key` with `value` in `region`. Both are copied.
    ///
    /// # Errors
    ///
    /// `InvalidArgument` where the batch isn't open, or the key is that of the group markers;
    /// `Memory`. The batch is as it was then.
    pub(crate) fn put(&mut self, region: u64, key: &[u8], value: &[u8]) -> Result<()> {
        self.check_open()?;
        // SAFETY: `held`, `open`: the handle holds an open batch.
        check_call(|text, text_len| unsafe {
            raft_ffi_batch_put(
                self.0.as_ptr(),
                region,
                key.as_ptr(),
                key.len(),
                value.as_ptr(),
                value.len(),
                text,
                text_len,
            )
        })
    }

    /// Adds a deletion of `key` in `region`, which removes the key and its value.
    ///
    /// # Errors
    ///
    /// `InvalidArgument` where the batch isn't open; `Memory`. The batch is as it was then.
    pub(crate) fn delete(&mut self, region: u64, key: &[u8]) -> Result<()> {
        self.check_open()?;
        // SAFETY: `held`, `open`: the handle holds an open batch.
        check_memory_code(unsafe {
            raft_ffi_batch_delete(self.0.as_ptr(), region, key.as_ptr(), key.len())
        })
    }

    /// Moves all items of another open batch to the end of this one. The other one is empty then.
    ///
    /// # Errors
    ///
    /// `InvalidArgument` where one of both isn't open; `Full` where they have 2^31 entry bytes or
    /// more together; `Memory`. Both are as they were then.
    pub(crate) fn merge(&mut self, more: &mut LogBatchHandle) -> Result<()> {
        self.check_open()?;
        more.check_open()?;
        // SAFETY: `held`, `more_held`, `open`, `more_open`: both handles hold an open batch, and they are two.
        check_call(|text, text_len| unsafe {
            raft_ffi_batch_merge(self.0.as_ptr(), more.0.as_ptr(), text, text_len)
        })
    }

    /// Makes the bytes of the batch, and returns how many they are: 0 without items. Nothing can be
    /// added from then on.
    ///
    /// # Errors
    ///
    /// `InvalidArgument` where the batch isn't open; `Full` where it would have 2^56 bytes or more;
    /// `Memory`. The batch is as it was then.
    pub(crate) fn finish(&mut self) -> Result<usize> {
        self.check_open()?;
        let mut len = 0;
        // SAFETY: `held`, `open`: the handle holds an open batch.
        check_call(|text, text_len| unsafe {
            raft_ffi_batch_finish(self.0.as_ptr(), &mut len, text, text_len)
        })?;
        Ok(len)
    }

    /// Signs the bytes of the batch for a file. It may be signed again, for another file.
    ///
    /// # Errors
    ///
    /// `InvalidArgument` where the batch is still open.
    pub(crate) fn sign(&mut self, file: LogFile) -> Result<()> {
        if self.stage() == Stage::Open {
            return Err(Error::invalid_argument("the batch is still open"));
        }
        // SAFETY: `held`, `encoded`: the handle holds a batch that is no longer open.
        unsafe { raft_ffi_batch_sign(self.0.as_ptr(), file.into()) };
        Ok(())
    }

    /// Returns a copy of the signed bytes; none without items.
    ///
    /// # Errors
    ///
    /// `InvalidArgument` where the batch isn't signed; `Memory`.
    pub(crate) fn bytes(&self) -> Result<Vec<u8>> {
        self.check_signed()?;
        fill_list(|room, len, count| {
            // SAFETY: `held`, `sealed`: the handle holds a signed batch.
            *count = with_handle(&self.0, |batch| unsafe {
                raft_ffi_batch_bytes(batch, room, len)
            });
            Ok(())
        })
    }

    /// Gives each entry and each key value its place: the batch was written to `file` at `offset`,
    /// and has `len` bytes there.
    ///
    /// # Errors
    ///
    /// `InvalidArgument` where the batch isn't signed, or the offset is above 2^64 - 17.
    pub(crate) fn place_items(&mut self, file: FileId, offset: u64, len: usize) -> Result<()> {
        self.check_signed()?;
        if offset > LAST_OFFSET {
            return Err(Error::invalid_argument(
                "no batch begins past offset 2^64 - 17",
            ));
        }
        // SAFETY: `held`, `sealed`, `offset`: the handle holds a signed batch, and the offset is at most 2^64 - 17.
        unsafe {
            raft_ffi_batch_written(
                self.0.as_ptr(),
                file.queue == Queue::Rewrite,
                file.seq,
                offset,
                len,
            );
        }
        Ok(())
    }

    /// Returns the items of the batch, whatever its stage. The only error is `Memory`: the batch is
    /// lost then.
    pub(crate) fn into_items(self) -> Result<ItemsHandle> {
        let batch = self.into_raw();
        let mut items = Handle::EMPTY;
        // SAFETY: `held`, `empty`: the one handle holds a batch, which is given away, and the other one is empty.
        check_memory_code(unsafe { raft_ffi_batch_into_items(batch, &mut items) })?;
        Ok(ItemsHandle(Cell::new(items)))
    }
}

impl Drop for LogBatchHandle {
    /// Frees the batch.
    fn drop(&mut self) {
        // SAFETY: `held`: the handle holds a batch, which is given away.
        unsafe { raft_ffi_batch_drop(self.0.get()) }
    }
}
