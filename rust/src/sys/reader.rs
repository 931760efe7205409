//! Handles of readers, and the opening of an engine over the files that readers have read.

use super::engine_calls::{TailNumbers, raft_ffi_engine_open};
use super::{
    EngineHandle, File, Handle, Status, TEXT_LEN, check_call, check_memory_code, error_with_text,
    fill_list,
};
use crate::{
    CutTail, DamagedBatch, Error, FileId, FilePart, LogFile, Queue, Recovered, RecoveryMode,
    Result, Version,
};
use std::mem;

/// The number of a file, and its length in bytes.
#[repr(C)]
#[derive(Clone, Copy, Debug)]
pub(crate) struct Size {
    pub(crate) seq: u64,
    pub(crate) len: u64,
}

unsafe extern "C" {
    /// Makes a reader that has read nothing in `reader`, which is empty before. Returns 0, or 11
    /// (`Memory`): it stays empty then.
    fn raft_ffi_reader_new(reader: *mut Handle) -> u32;
    /// Replays `bytes`, batches that stand in `file` from `offset` on. The code is 0, or that of
    /// the error if a batch can't be read or can't follow those before it, or 11 (`Memory`). After
    /// an error `reader` is empty: what it held may have taken in some of the batches, and is
    /// dropped.
    fn raft_ffi_reader_replay(
        reader: *mut Handle,
        file: File,
        offset: u64,
        bytes: *const u8,
        bytes_len: usize,
        text: *mut u8,
        text_len: usize,
    ) -> Status;
    /// Replays the batches at the start of `bytes`, up to the first one that can't be read, and
    /// sets `len` to how many bytes they have. `bytes` stand in the last file of a queue from
    /// `offset` on. The entries of each batch are checked: the reader notes which batches of an
    /// append file have damaged ones; in a rewrite file the first such batch is an error.
    ///
    /// The code is 0, or that of the error. After an error `reader` is empty, and `len` isn't set.
    fn raft_ffi_reader_replay_last(
        reader: *mut Handle,
        file: File,
        offset: u64,
        bytes: *const u8,
        bytes_len: usize,
        len: *mut usize,
        text: *mut u8,
        text_len: usize,
    ) -> Status;
    /// Takes in what `newer` has read, the batches that follow in the same queue. `newer` is gone
    /// then. The code is 0, or that of the error. After an error `reader` is empty too.
    fn raft_ffi_reader_merge(
        reader: *mut Handle,
        newer: Handle,
        is_rewrite: bool,
        text: *mut u8,
        text_len: usize,
    ) -> Status;
    /// Lists in `offsets` where in the last append file the batches with damaged entries begin that
    /// a reader has found, in order, as many as there is room for. Returns how many there are,
    /// which may be more.
    fn raft_ffi_reader_damaged(reader: *mut Handle, offsets: *mut u64, offsets_len: usize)
    -> usize;
    /// Returns the error with which damaged entries of the batch that begins at `offset` of `file`
    /// are refused: its code, and its text in `text`. Whether they are damaged isn't tested.
    fn raft_ffi_damaged_entries(file: File, offset: u64, text: *mut u8, text_len: usize) -> Status;
    /// Frees the reader.
    fn raft_ffi_reader_drop(reader: Handle);
}

/// Owns a reader of the library: what was read of neighboring batches of a queue.
#[derive(Debug)]
pub(crate) struct ReaderHandle(Handle);

// SAFETY: the library proves that its handle may move to another thread, and each call takes `self`.
unsafe impl Send for ReaderHandle {}

/// The files of a queue that were read.
pub(crate) struct ReadFiles {
    /// The reader that has read all their batches, up to one in the last file that can't be read.
    pub(crate) reader: ReaderHandle,
    /// The number and the length of each file, oldest first.
    pub(crate) sizes: Vec<Size>,
    /// The bytes of the last file from that batch on; none if the file could be read to its end.
    pub(crate) rest: Vec<u8>,
}

impl ReaderHandle {
    /// Makes a reader that has read nothing. The only error is `Memory`.
    pub(crate) fn new() -> Result<ReaderHandle> {
        let mut handle = Handle::EMPTY;
        // SAFETY: `empty`: the handle is empty.
        check_memory_code(unsafe { raft_ffi_reader_new(&mut handle) })?;
        Ok(ReaderHandle(handle))
    }

    /// Replays the batches of a part, which follow those that were replayed before, and returns the reader.
    ///
    /// # Errors
    ///
    /// That of the first batch that can't be read or can't follow those before it; `Memory`. The reader is lost then.
    pub(crate) fn replay(self, part: FilePart<'_>) -> Result<ReaderHandle> {
        part.check_end()?;
        let mut handle = self.into_raw();
        // SAFETY: `held`, `ends`: the handle holds a reader, and the bytes end where an offset can. After a refusal
        // the handle is empty.
        check_call(|text, text_len| unsafe {
            raft_ffi_reader_replay(
                &mut handle,
                part.file.into(),
                part.offset,
                part.bytes.as_ptr(),
                part.bytes.len(),
                text,
                text_len,
            )
        })?;
        Ok(ReaderHandle(handle))
    }

    /// Replays the batches of a part of a queue's last file, up to the first one that can't be read. Returns the reader, and how
    /// many bytes these batches have. The entries of each batch are checked: the reader notes which batches of an append file
    /// have damaged ones.
    ///
    /// # Errors
    ///
    /// `Corruption` for the first batch of a rewrite file with damaged entries; that of the first batch that can't follow those
    /// before it; `Memory`. The reader is lost then.
    pub(crate) fn replay_last(self, part: FilePart<'_>) -> Result<(ReaderHandle, usize)> {
        part.check_end()?;
        let mut handle = self.into_raw();
        let mut len = 0;
        // SAFETY: `held`, `ends`: the handle holds a reader, and the bytes end where an offset can. After a refusal
        // the handle is empty.
        check_call(|text, text_len| unsafe {
            raft_ffi_reader_replay_last(
                &mut handle,
                part.file.into(),
                part.offset,
                part.bytes.as_ptr(),
                part.bytes.len(),
                &mut len,
                text,
                text_len,
            )
        })?;
        Ok((ReaderHandle(handle), len))
    }

    /// Merges the reader `newer`, of the batches that follow in the queue `queue`, into this one, and returns that.
    ///
    /// # Errors
    ///
    /// Those of [`Context::merge`](crate::Context::merge). Both readers are lost then.
    pub(crate) fn merge(self, newer: ReaderHandle, queue: Queue) -> Result<ReaderHandle> {
        let (mut handle, newer) = (self.into_raw(), newer.into_raw());
        // SAFETY: `held`, `newer`: both handles hold a reader, and the newer one is given away. After a refusal the
        // other one is empty.
        check_call(|text, text_len| unsafe {
            raft_ffi_reader_merge(&mut handle, newer, queue == Queue::Rewrite, text, text_len)
        })?;
        Ok(ReaderHandle(handle))
    }

    /// Returns the batches with damaged entries that the reader has found, in order. `file` is the last append file, which has
    /// all of them. The only error is `Memory`.
    fn damaged_batches(&mut self, file: LogFile) -> Result<Vec<DamagedBatch>> {
        let offsets = fill_list(|room, len, count| {
            // SAFETY: `held`: the handle holds a reader.
            *count = unsafe { raft_ffi_reader_damaged(&mut self.0, room, len) };
            Ok(())
        })?;
        let batches = offsets
            .into_iter()
            .map(|offset| damaged_batch_at(file, offset));
        batches.collect()
    }

    /// Gives up the ownership, and returns the library's handle. The caller has to free its value, or to give it to the
    /// library.
    fn into_raw(self) -> Handle {
        let handle = self.0;
        mem::forget(self);
        handle
    }
}

impl Drop for ReaderHandle {
    /// Frees the reader.
    fn drop(&mut self) {
        // SAFETY: `held`: the handle holds a reader, which is given away.
        unsafe { raft_ffi_reader_drop(self.0) }
    }
}

/// Returns the batch with damaged entries that begins at an offset of a file, with the error for these entries.
///
/// # Errors
///
/// `Memory`, where there is none for the text of that error.
fn damaged_batch_at(file: LogFile, offset: u64) -> Result<DamagedBatch> {
    // SAFETY: the text is lent for the call.
    let refused = check_call(|text, text_len| unsafe {
        raft_ffi_damaged_entries(file.into(), offset, text, text_len)
    });
    match refused {
        Err(reason) if reason.file.is_some() => Ok(DamagedBatch {
            file: file.into(),
            offset,
            reason,
        }),
        _ => Err(Error::memory()), // else its words would name the file
    }
}

/// Opens an engine over files of both queues that were read, and returns it with what couldn't be read: the tails that were cut
/// off, and the batches with damaged entries. The files aren't changed: the engine has orders for that.
///
/// # Errors
///
/// Those of [`Engine::with_files`](crate::Engine::with_files), but for `Io`. There is no engine then, so nothing is ordered.
pub(crate) fn open_engine(
    mut append: ReadFiles,
    rewrite: ReadFiles,
    version: Version,
    mode: RecoveryMode,
) -> Result<(EngineHandle, Recovered)> {
    let last = append.sizes.last().map(|last| last.seq);
    let last = last.map(|seq| LogFile::new(Queue::Append, seq, version));
    let damaged = last.map_or(Ok(Vec::new()), |file| append.reader.damaged_batches(file))?;
    let mut handle = Handle::EMPTY;
    let (mut append_tail, mut rewrite_tail) = (TailRoom::default(), TailRoom::default());
    let (appended, rewritten) = (append.reader.into_raw(), rewrite.reader.into_raw());
    let is_signed = version == Version::V2;
    // SAFETY: `empty`, `read`: the one handle is empty, and the others hold readers, which are given away; each has read just the
    // batches of its files, and the rest is what stands behind them.
    check_call(|text, text_len| unsafe {
        raft_ffi_engine_open(
            &mut handle,
            append.sizes.as_ptr(),
            append.sizes.len(),
            append.rest.as_ptr(),
            append.rest.len(),
            rewrite.sizes.as_ptr(),
            rewrite.sizes.len(),
            rewrite.rest.as_ptr(),
            rewrite.rest.len(),
            appended,
            rewritten,
            is_signed,
            mode_number(mode),
            &mut append_tail.numbers,
            append_tail.reason.as_mut_ptr(),
            append_tail.reason.len(),
            &mut rewrite_tail.numbers,
            rewrite_tail.reason.as_mut_ptr(),
            rewrite_tail.reason.len(),
            text,
            text_len,
        )
    })?;
    let recovered = Recovered {
        append: append_tail.into_cut_tail(Queue::Append),
        rewrite: rewrite_tail.into_cut_tail(Queue::Rewrite),
        damaged,
    };
    Ok((EngineHandle::from_raw(handle), recovered))
}

/// Room for what the library says of a tail that was cut off.
struct TailRoom {
    numbers: TailNumbers,
    /// The text of the reason.
    reason: [u8; TEXT_LEN],
}

impl Default for TailRoom {
    /// Makes room in which nothing is said yet: no tail was cut off.
    fn default() -> TailRoom {
        TailRoom {
            numbers: TailNumbers::default(),
            reason: [0; TEXT_LEN],
        }
    }
}

impl TailRoom {
    /// Makes the cut tail of what the library has said of the end of a queue's last file; `None` where nothing was cut off.
    fn into_cut_tail(self, queue: Queue) -> Option<CutTail> {
        let numbers = self.numbers.is_some.then_some(self.numbers)?;
        let file = FileId::new(queue, numbers.seq);
        let reason = error_with_text(numbers.code, numbers.text_len, &self.reason);
        Some(CutTail {
            file,
            offset: numbers.offset,
            len: numbers.len,
            reason: Some(reason.with_place(file, numbers.offset)),
        })
    }
}

/// Returns the number by which the library takes a mode.
fn mode_number(mode: RecoveryMode) -> u32 {
    match mode {
        RecoveryMode::AbsoluteConsistency => 0,
        RecoveryMode::TolerateTornTail => 1,
        RecoveryMode::TolerateTailCorruption => 2,
    }
}
