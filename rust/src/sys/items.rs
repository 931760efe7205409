//! Handles of the items of a batch.

use super::{
    EntryNumbers, File, Handle, Status, check_call, fill_list_if_found, to_entries, with_handle,
};
use crate::{Content, Entry, FilePart, Item, Result};
use std::cell::Cell;
use std::mem;

/// An item without its lists, as the library fills it in.
#[repr(C)]
#[derive(Clone, Copy, Default)]
struct ItemHead {
    region: u64,
    /// The index of a `Compact` or a `Truncate`.
    number: u64,
    /// What it does, from 0 on in the order of the variants of [`Content`].
    kind: u32,
}

unsafe extern "C" {
    /// Reads the items of the log batch at position `at` of `bytes` into `items`, which is empty
    /// before, and sets `next` to the position where the next batch begins; `bytes` stand in `file`
    /// from `offset` on. If `at` is the end of `bytes`, `items` stays empty and `next` isn't set.
    /// The code is 0, or that of the error for a batch that can't be read, or 11 (`Memory`):
    /// `items` stays empty then.
    fn raft_ffi_items_next(
        items: *mut Handle,
        file: File,
        offset: u64,
        bytes: *const u8,
        bytes_len: usize,
        at: usize,
        next: *mut usize,
        text: *mut u8,
        text_len: usize,
    ) -> Status;
    /// Returns how many items there are.
    fn raft_ffi_items_len(items: *mut Handle) -> usize;
    /// Returns whether there is an item `i`, counted from 0. If there is one, `head` is set to what
    /// it says.
    fn raft_ffi_items_head(items: *mut Handle, i: usize, head: *mut ItemHead) -> bool;
    /// Returns whether there is an item `i`, counted from 0, and it is one of entries. If so, as
    /// many of them as there is room for are listed in `entries`, and `count` is set to how many
    /// there are, which may be more.
    fn raft_ffi_items_entries(
        items: *mut Handle,
        i: usize,
        entries: *mut EntryNumbers,
        entries_len: usize,
        count: *mut usize,
    ) -> bool;
    /// Returns whether there is an item `i`, counted from 0, and it changes a key. If so, as many
    /// bytes of the key as there is room for are copied into `key`, and `len` is set to how many it
    /// has, which may be more.
    fn raft_ffi_items_key(
        items: *mut Handle,
        i: usize,
        key: *mut u8,
        key_len: usize,
        len: *mut usize,
    ) -> bool;
    /// Returns whether there is an item `i`, counted from 0, and it puts a value. If so, as many
    /// bytes of the value as there is room for are copied into `value`, and `len` is set to how
    /// many it has, which may be more.
    fn raft_ffi_items_value(
        items: *mut Handle,
        i: usize,
        value: *mut u8,
        value_len: usize,
        len: *mut usize,
    ) -> bool;
    /// Frees the items.
    fn raft_ffi_items_drop(items: Handle);
}

/// Owns the items of a batch, in the library.
#[derive(Debug)]
pub(crate) struct ItemsHandle(pub(super) Cell<Handle>);

// SAFETY: the library proves that its handle may move to another thread; the cell makes this type no `Sync`.
unsafe impl Send for ItemsHandle {}

impl ItemsHandle {
    /// Reads the batch that stands at byte `at` of a part, and returns its items, and where the
    /// next batch begins; `None` at the end of the part. Panics if `at` is past the end.
    ///
    /// # Errors
    ///
    /// The reason why no batch can be read there; `Memory`.
    pub(crate) fn read_batch_at(
        part: FilePart<'_>,
        at: usize,
    ) -> Result<Option<(ItemsHandle, usize)>> {
        part.check_end()?;
        assert!(at <= part.bytes.len(), "no batch stands behind the end");
        if at == part.bytes.len() {
            return Ok(None);
        }
        let (mut handle, mut next) = (Handle::EMPTY, at);
        // SAFETY: `empty`, `inside`, `ends`: the handle is empty, `at` is within the bytes, and these end where an offset can.
        check_call(|text, text_len| unsafe {
            raft_ffi_items_next(
                &mut handle,
                part.file.into(),
                part.offset,
                part.bytes.as_ptr(),
                part.bytes.len(),
                at,
                &mut next,
                text,
                text_len,
            )
        })?;
        // In front of the end a batch was read, so the handle holds items.
        Ok(Some((ItemsHandle(Cell::new(handle)), next)))
    }

    /// Gives up the ownership, and returns the library's handle. The caller has to free its value, or to give it to the
    /// library.
    pub(super) fn into_raw(self) -> Handle {
        let handle = self.0.get();
        mem::forget(self);
        handle
    }

    /// Returns how many items there are.
    pub(crate) fn len(&self) -> usize {
        // SAFETY: `held`: the handle holds items.
        with_handle(&self.0, |items| unsafe { raft_ffi_items_len(items) })
    }

    /// Returns the region of the item at position `i`; `None` behind the last item.
    pub(crate) fn region(&self, i: usize) -> Option<u64> {
        Some(self.item_head(i)?.region)
    }

    /// Returns a copy of the item at position `i`; `None` behind the last item. It panics where the
    /// item has an entry without a place.
    pub(crate) fn item(&self, i: usize) -> Option<Item> {
        let head = self.item_head(i)?;
        let index = head.number;
        Some(Item {
            region: head.region,
            content: match head.kind {
                0 => Content::Entries(self.entries(i)),
                1 => Content::Clean,
                2 => Content::Compact { index },
                3 => Content::Truncate { index },
                4 => Content::Put {
                    key: self.key(i),
                    value: self.value(i),
                },
                _ => Content::Delete { key: self.key(i) },
            },
        })
    }

    /// Returns the item at position `i` without its lists; `None` behind the last item.
    fn item_head(&self, i: usize) -> Option<ItemHead> {
        let mut head = ItemHead::default();
        // SAFETY: `held`: the handle holds items.
        let is_found = with_handle(&self.0, |items| unsafe {
            raft_ffi_items_head(items, i, &mut head)
        });
        is_found.then_some(head)
    }

    /// Returns copies of the entries of the item at position `i`. It panics where the item isn't one of entries, or an entry
    /// has no place.
    fn entries(&self, i: usize) -> Vec<Entry> {
        let list = fill_list_if_found(|room, len, count| {
            // SAFETY: `held`: the handle holds items.
            with_handle(&self.0, |items| unsafe {
                raft_ffi_items_entries(items, i, room, len, count)
            })
        });
        to_entries(list.expect("an item of entries has entries"))
    }

    /// Returns a copy of the key that the item at position `i` puts or deletes. It panics where the item does neither.
    fn key(&self, i: usize) -> Vec<u8> {
        fill_list_if_found(|room, len, count| {
            // SAFETY: `held`: the handle holds items.
            with_handle(&self.0, |items| unsafe {
                raft_ffi_items_key(items, i, room, len, count)
            })
        })
        .expect("a change of a key has a key")
    }

    /// Returns a copy of the value that the item at position `i` puts. It panics where the item puts none.
    fn value(&self, i: usize) -> Vec<u8> {
        fill_list_if_found(|room, len, count| {
            // SAFETY: `held`: the handle holds items.
            with_handle(&self.0, |items| unsafe {
                raft_ffi_items_value(items, i, room, len, count)
            })
        })
        .expect("a put that was read has a value")
    }
}

impl Drop for ItemsHandle {
    /// Frees the items.
    fn drop(&mut self) {
        // SAFETY: `held`: the handle holds items, which are given away.
        unsafe { raft_ffi_items_drop(self.0.get()) }
    }
}
