//! Declares the calls of the library `raft_ffi`, and makes them safe. This file and the folder `sys`, which has the handles and
//! the calls on them, are the only `unsafe` code of the crate.
//!
//! What the library's contracts ask of a caller is kept here, mostly by types:
//!
//! - A handle type of the folder `sys` holds a value of the library at any time: it is made with one, and a call that takes the
//!   value away takes the handle by value.
//! - A handle is in one call at a time: its calls take `&mut self`, or it has a `Cell`, so that it isn't `Sync`. It isn't copied
//!   (no `Clone`), and its value is freed once (by `Drop`, unless a call takes it).
//! - Slices are lent for the call alone. They never overlap: what is written is behind a `&mut`, or belongs to the call.
//! - Numbers and stages that a contract bounds are tested where they come in: the part of a file by [`FilePart::check_end`]; the
//!   files of an atomic group by [`Tables::set_atomic_group`](crate::Tables::set_atomic_group); the stage of a batch, the last
//!   index of its entries and its offset by [`LogBatchHandle`].
//! - The readers with which an engine is opened have read just the batches of its files, up to the first one in each queue's last
//!   file that can't be read. With them come the lengths of these files, and the bytes from that batch on. `engine::found` alone
//!   makes a [`ReaderHandle`], and opens engines.
//! - The orders of an engine are taken one after another, none twice ([`EngineHandle`] tests their numbers), and carried out
//!   before the next call is made that orders something. `engine::orders::Turn` alone makes such calls.
//!
//! A parameter of the type `Global`, the library's allocator, has no bytes and isn't passed. A `&[T]` is passed as a pointer and
//! a length. `tools/ffi.py` compares the declarations with the exports.

use crate::{Error, FilePart, Result};
use std::cell::Cell;
use std::ptr;

mod context;
mod engine;
mod engine_calls;
#[cfg(feature = "global-allocator")]
mod heap;
mod items;
mod lists;
mod log_batch;
mod numbers;
mod packed;
mod reader;
mod table_calls;
mod tables;

pub(crate) use context::ContextHandle;
pub(crate) use engine::{EngineHandle, Order, check_entry_block};
pub(crate) use items::ItemsHandle;
pub(crate) use lists::PackedPairs;
pub(crate) use log_batch::LogBatchHandle;
pub(crate) use packed::Packed;
pub(crate) use reader::{ReadFiles, ReaderHandle, Size, open_engine};
pub(crate) use tables::TablesHandle;

use lists::{
    fill_list, fill_list_if_found, fill_list_with_room, fill_packed_pairs, fill_pairs, make_room,
};
use numbers::{EntryNumbers, File, Maybe, SummaryNumbers, to_entries, to_entry_numbers};

/// A pointer to a value of the library; null where there is none.
#[repr(C)]
#[derive(Clone, Copy, Debug)]
struct Handle {
    at: *mut u8,
}

/// How a call of the library ended.
#[repr(C)]
#[derive(Clone, Copy)]
struct Status {
    /// The number of the error's kind; 0 for success.
    code: u32,
    /// How many bytes the error's text has, which may be more than there was room for.
    text_len: usize,
}

unsafe extern "C" {
    /// Returns the length in bytes of the log batch whose header stands at the start of `bytes`, or
    /// 0 if no header stands there. So files can be cut between batches. Whether the batch can be
    /// read, or is all there, isn't tested.
    fn raft_ffi_batch_len(bytes: *const u8, bytes_len: usize) -> usize;
    /// Sets `len` to how many of `bytes`, from the first one on, are readable batches, one after
    /// another; `bytes` stand in `file` from `offset` on. The code is 0 if they are all of `bytes`.
    /// Else it is that of the error for which the batch after them can't be read, with its text in
    /// `text`.
    fn raft_ffi_readable_front(
        file: File,
        offset: u64,
        bytes: *const u8,
        bytes_len: usize,
        len: *mut usize,
        text: *mut u8,
        text_len: usize,
    ) -> Status;
    /// Returns the CRC-32 of `bytes`.
    fn raft_ffi_crc32(bytes: *const u8, bytes_len: usize) -> u32;
    /// Returns the number of the slot that holds a region's table, which is below 128.
    fn raft_ffi_slot_of(region: u64) -> usize;
}

/// How many bytes of an error's text are kept at most.
const TEXT_LEN: usize = 256;

/// Makes `call`, a call of the library, which gets room for the text of its error: a pointer and a length. Returns the error;
/// `None` where the call succeeded.
fn error_of_call(call: impl FnOnce(*mut u8, usize) -> Status) -> Option<Error> {
    let mut text = [0u8; TEXT_LEN];
    let status = call(text.as_mut_ptr(), text.len());
    (status.code != 0).then(|| error_with_text(status.code, status.text_len, &text))
}

/// Makes the error whose kind has the number `code`, which isn't 0. `text` begins with the error's text, which has `text_len`
/// bytes, or with as many of these as there was room for.
fn error_with_text(code: u32, text_len: usize, text: &[u8; TEXT_LEN]) -> Error {
    let text = &text[..text_len.min(TEXT_LEN)];
    Error::from_library(code, String::from_utf8_lossy(text).into_owned())
}

/// Makes `call`, a call of the library, which gets room for the text of its error, a pointer and a length; and turns its
/// status into a result.
///
/// # Errors
///
/// The error of the call.
fn check_call(call: impl FnOnce(*mut u8, usize) -> Status) -> Result<()> {
    error_of_call(call).map_or(Ok(()), Err)
}

/// Turns `code`, the answer of a call that can only fail for lack of memory, into a result.
///
/// # Errors
///
/// `Memory` where it isn't 0.
fn check_memory_code(code: u32) -> Result<()> {
    match code {
        0 => Ok(()),
        _ => Err(Error::memory()),
    }
}

impl Handle {
    /// The handle without a value.
    const EMPTY: Handle = Handle {
        at: ptr::null_mut(),
    };
}

/// Lends the handle in `cell` to `call`, puts it back as `call` leaves it, and returns what `call` returns.
fn with_handle<A>(cell: &Cell<Handle>, call: impl FnOnce(*mut Handle) -> A) -> A {
    let mut handle = cell.get();
    let answer = call(&mut handle);
    cell.set(handle);
    answer
}

/// Returns how many bytes of a part, from the first one on, are readable batches, one behind the other, and the error of the
/// batch behind them; `None` where the part ends there. The part must end at an offset below 2^64.
pub(crate) fn readable_front(part: FilePart<'_>) -> (usize, Option<Error>) {
    part.check_end().expect("a part ends where an offset can");
    let mut len = 0;
    // SAFETY: `ends`: the bytes end where an offset can.
    let refused = error_of_call(|text, text_len| unsafe {
        raft_ffi_readable_front(
            part.file.into(),
            part.offset,
            part.bytes.as_ptr(),
            part.bytes.len(),
            &mut len,
            text,
            text_len,
        )
    });
    (len, refused)
}

/// Returns how many bytes the batch at the start of `bytes` has, by its header; `None` where no header stands there.
pub(crate) fn batch_len(bytes: &[u8]) -> Option<usize> {
    // SAFETY: the bytes are lent for the call.
    let len = unsafe { raft_ffi_batch_len(bytes.as_ptr(), bytes.len()) };
    (len > 0).then_some(len)
}

/// Returns the CRC-32 of bytes.
pub(crate) fn crc32(bytes: &[u8]) -> u32 {
    // SAFETY: the bytes are lent for the call.
    unsafe { raft_ffi_crc32(bytes.as_ptr(), bytes.len()) }
}

/// Returns the number of the slot that a region belongs to.
pub(crate) fn slot_of(region: u64) -> usize {
    // SAFETY: the library asks nothing.
    unsafe { raft_ffi_slot_of(region) }
}
