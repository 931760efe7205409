//! Handles of contexts.

use super::{File, Handle, Status, TablesHandle, check_call, check_memory_code};
use crate::{FilePart, Kept, Queue, Result};
use std::cell::Cell;
use std::mem;

/// A [`Kept`] as the library fills it in.
#[repr(C)]
#[derive(Clone, Copy, Default)]
struct KeptNumbers {
    entries: u64,
    keys: u64,
    marks: u64,
    deleted_keys: u64,
    cleaned: u64,
    waiting_items: u64,
}

unsafe extern "C" {
    /// Makes a context that has read nothing in `context`, which is empty before. Returns 0, or 11
    /// (`Memory`): it stays empty then.
    fn raft_ffi_context_new(context: *mut Handle) -> u32;
    /// Replays `bytes`, batches that stand in `file` from `offset` on. The code is 0; that of the
    /// error if a batch can't be read or can't follow those before it; 12 (`Failed`), if the
    /// context doesn't read on; or 11 (`Memory`). After an error `context` is empty: what it held
    /// may have taken in some of the batches, and is dropped.
    fn raft_ffi_context_replay(
        context: *mut Handle,
        file: File,
        offset: u64,
        bytes: *const u8,
        bytes_len: usize,
        text: *mut u8,
        text_len: usize,
    ) -> Status;
    /// Takes in `newer`, the context of the batches that follow in the same queue. `newer` is gone
    /// then. The code is 0, or that of the error: 12 (`Failed`), if one of both doesn't read on.
    /// After an error `context` is empty.
    fn raft_ffi_context_merge(
        context: *mut Handle,
        newer: Handle,
        is_rewrite: bool,
        text: *mut u8,
        text_len: usize,
    ) -> Status;
    /// Takes in `append`, the context of the append queue; `context` is that of the rewrite queue.
    /// `append` is gone then. The code is 0, or that of the error: 12 (`Failed`), if one of both
    /// doesn't read on, or 11 (`Memory`), the only one if they are contexts of the two queues.
    /// After an error `context` is empty.
    fn raft_ffi_context_overlay(
        context: *mut Handle,
        append: Handle,
        text: *mut u8,
        text_len: usize,
    ) -> Status;
    /// Sets `kept` to how much a context holds. The code is 0, or 12 (`Failed`) for a context that
    /// failed: `kept` isn't set then. The context is unchanged.
    fn raft_ffi_context_kept(
        context: *mut Handle,
        kept: *mut KeptNumbers,
        text: *mut u8,
        text_len: usize,
    ) -> Status;
    /// Makes the tables of a context in `tables`, which is empty before. The context is gone then.
    /// The code is 0; 12 (`Failed`), for a context that failed; or 11 (`Memory`). `tables` stays
    /// empty after an error.
    fn raft_ffi_context_finish(
        context: Handle,
        tables: *mut Handle,
        text: *mut u8,
        text_len: usize,
    ) -> Status;
    /// Frees the context.
    fn raft_ffi_context_drop(context: Handle);
}

/// Owns a context of the library.
#[derive(Debug)]
pub(crate) struct ContextHandle(Handle);

// SAFETY: the library proves that its handle may move to another thread, and each call takes `self` or `&mut self`.
unsafe impl Send for ContextHandle {}

impl ContextHandle {
    /// Makes a context that has read nothing. The only error is `Memory`.
    pub(crate) fn new() -> Result<ContextHandle> {
        let mut handle = Handle::EMPTY;
        // SAFETY: `empty`: the handle is empty.
        check_memory_code(unsafe { raft_ffi_context_new(&mut handle) })?;
        Ok(ContextHandle(handle))
    }

    /// Gives up the ownership, and returns the library's handle. The caller has to free its value, or to give it to the
    /// library.
    pub(super) fn into_raw(self) -> Handle {
        let handle = self.0;
        mem::forget(self);
        handle
    }

    /// Replays the batches of a part, which follow those that were replayed before, and returns the context.
    ///
    /// # Errors
    ///
    /// That of the first batch that can't be read or can't follow those before it; `Memory`. The context is lost then.
    pub(crate) fn replay(self, part: FilePart<'_>) -> Result<ContextHandle> {
        part.check_end()?;
        let mut handle = self.into_raw();
        // SAFETY: `held`, `ends`: the handle holds a context, and the bytes end where an offset can. After a refusal
        // the handle is empty.
        check_call(|text, text_len| unsafe {
            raft_ffi_context_replay(
                &mut handle,
                part.file.into(),
                part.offset,
                part.bytes.as_ptr(),
                part.bytes.len(),
                text,
                text_len,
            )
        })?;
        Ok(ContextHandle(handle))
    }

    /// Merges the context `newer`, of the batches that follow in the queue `queue`, into this one, and returns that.
    ///
    /// # Errors
    ///
    /// Those of [`Context::merge`](crate::Context::merge). Both contexts are lost then.
    pub(crate) fn merge(self, newer: ContextHandle, queue: Queue) -> Result<ContextHandle> {
        let (mut handle, newer) = (self.into_raw(), newer.into_raw());
        // SAFETY: `held`, `newer`: both handles hold a context, and the newer one is given away. After a refusal the
        // other one is empty.
        check_call(|text, text_len| unsafe {
            raft_ffi_context_merge(&mut handle, newer, queue == Queue::Rewrite, text, text_len)
        })?;
        Ok(ContextHandle(handle))
    }

    /// Puts the context of the append queue over this one, that of the rewrite queue, and returns the context of both.
    ///
    /// # Errors
    ///
    /// Those of [`Context::overlay`](crate::Context::overlay). Both contexts are lost then.
    pub(crate) fn overlay(self, append: ContextHandle) -> Result<ContextHandle> {
        let (mut handle, append) = (self.into_raw(), append.into_raw());
        // SAFETY: `held`, `append`: both handles hold a context, and the second one is given away. After a refusal
        // the first one is empty.
        check_call(|text, text_len| unsafe {
            raft_ffi_context_overlay(&mut handle, append, text, text_len)
        })?;
        Ok(ContextHandle(handle))
    }

    /// Counts what the context holds.
    ///
    /// # Errors
    ///
    /// `Failed` where the context has failed. It is unchanged.
    pub(crate) fn count_kept(&mut self) -> Result<Kept> {
        let mut kept = KeptNumbers::default();
        // SAFETY: `held`: the handle holds a context, before and after.
        check_call(|text, text_len| unsafe {
            raft_ffi_context_kept(&mut self.0, &mut kept, text, text_len)
        })?;
        Ok(Kept {
            entries: kept.entries,
            keys: kept.keys,
            marks: kept.marks,
            deleted_keys: kept.deleted_keys,
            cleaned: kept.cleaned,
            waiting_items: kept.waiting_items,
        })
    }

    /// Returns the tables of what was read.
    ///
    /// # Errors
    ///
    /// `Failed` where the context has failed; `Memory`. The context is lost then.
    pub(crate) fn finish(self) -> Result<TablesHandle> {
        let context = self.into_raw();
        let mut handle = Handle::EMPTY;
        // SAFETY: `held`, `empty`: the one handle holds a context, which is given away, and the other one is empty.
        check_call(|text, text_len| unsafe {
            raft_ffi_context_finish(context, &mut handle, text, text_len)
        })?;
        Ok(TablesHandle(Cell::new(handle)))
    }
}

impl Drop for ContextHandle {
    /// Frees the context.
    fn drop(&mut self) {
        // SAFETY: `held`: the handle holds a context, which is given away.
        unsafe { raft_ffi_context_drop(self.0) }
    }
}
