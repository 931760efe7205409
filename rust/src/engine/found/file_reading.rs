//! Reads a file by several threads, and replays its batches.

use super::file_pieces::{FilePieces, PIECE, Piece, read_exact_at};
use crate::engine::locks;
use crate::sys::ReaderHandle;
use crate::{Error, ErrorKind, FilePart, Files, LogFile, Result, readable_front};
use std::sync::Mutex;
use std::sync::atomic::{AtomicU64, Ordering::Relaxed};

/// A file while threads read it, each a piece at a time.
pub(super) struct FileReading<'a, F> {
    files: &'a F,
    file: LogFile,
    /// The length of the file in bytes, more than 0.
    len: u64,
    /// Whether it is the last file of its queue: a batch of it that can't be read ends the reading, and is no error.
    is_last: bool,
    /// Whether an error has to name the batch that doesn't fit those before it, which costs a second reading.
    is_named: bool,
    /// The pieces, of which one thread at a time reads the next.
    pieces: Mutex<FilePieces<'a, F>>,
    /// How many bytes aren't read yet, to be looked at without the lock.
    left: AtomicU64,
}

impl<'a, F: Files> FileReading<'a, F> {
    /// Makes the reading of a file of `len` bytes, of which nothing is read yet. `is_last` says whether it is the last file of
    /// its queue, and `is_named` whether an error has to name the batch that doesn't fit those before it.
    pub(super) fn new(
        files: &'a F,
        file: LogFile,
        len: u64,
        is_last: bool,
        is_named: bool,
    ) -> FileReading<'a, F> {
        FileReading {
            files,
            file,
            len,
            is_last,
            is_named,
            pieces: Mutex::new(FilePieces::new(files, file.into(), len)),
            left: AtomicU64::new(len),
        }
    }

    /// Returns how many bytes of the file weren't read yet.
    pub(super) fn bytes_left(&self) -> u64 {
        self.left.load(Relaxed)
    }

    /// Returns about how many pieces the file will be read in.
    pub(super) fn estimate_pieces(&self) -> u64 {
        self.len.div_ceil(PIECE as u64)
    }

    /// Reads the next piece into `room`, and lends it from there; `None` where there is no further piece. With it comes the
    /// number of the piece, counted from 0.
    ///
    /// # Errors
    ///
    /// Those of [`FilePieces::read_next_piece`], with the number of the piece that couldn't be read.
    pub(super) fn read_next_piece<'r>(
        &self,
        room: &'r mut Vec<u8>,
    ) -> (usize, Result<Option<Piece<'r>>>) {
        let mut pieces = locks::lock(&self.pieces);
        let number = pieces.count_read();
        let piece = pieces.read_next_piece(room);
        self.left.store(pieces.bytes_left(), Relaxed);
        (number, piece)
    }

    /// Ends the reading: no thread gets a further piece.
    pub(super) fn stop(&self) {
        locks::lock(&self.pieces).stop();
        self.left.store(0, Relaxed);
    }

    /// Replays the batches of a piece in `reader`, and returns that. In the last file of a queue it ends before the first batch
    /// that can't be read, and returns with the reader all bytes of the file from there on; `None` where all batches of the piece
    /// could be read.
    ///
    /// # Errors
    ///
    /// The error of the first batch that can't be read, in a file that isn't the last, or that doesn't fit those before it, or
    /// whose entries are damaged, in the last rewrite file; `Io`, `Memory`. The reader is gone then.
    pub(super) fn replay_piece(
        &self,
        reader: ReaderHandle,
        piece: Piece<'_>,
    ) -> Result<(ReaderHandle, Option<Vec<u8>>)> {
        let part = FilePart {
            file: self.file,
            offset: piece.offset,
            bytes: piece.bytes,
        };
        if !self.is_last {
            return Ok((reader.replay(part)?, None));
        }
        let (reader, front) = match self.is_named {
            true => replay_readable_prefix(reader, part)?,
            false => reader.replay_last(part)?,
        };
        match piece.bytes.split_at(front) {
            (_, []) => Ok((reader, None)),
            (_, rest) => Ok((
                reader,
                Some(self.read_rest(piece.offset + front as u64, rest)?),
            )),
        }
    }

    /// Returns all bytes of the file from `offset` on. `read` are the first of them, which were read already.
    ///
    /// # Errors
    ///
    /// `Io` and `Memory`, with file and offset.
    fn read_rest(&self, offset: u64, read: &[u8]) -> Result<Vec<u8>> {
        let memory = || Error::memory().with_place(self.file.into(), offset);
        let len = usize::try_from(self.len - offset).map_err(|_| memory())?;
        let mut rest = Vec::new();
        rest.try_reserve_exact(len).map_err(|_| memory())?;
        rest.extend_from_slice(read);
        rest.resize(len, 0);
        let behind = &mut rest[read.len()..];
        if !behind.is_empty() {
            let at = offset + read.len() as u64;
            read_exact_at(self.files, self.file.into(), at, behind)?;
        }
        Ok(rest)
    }
}

/// Replays the batches of a part of the last file of a queue, up to the first one that can't be read. Returns the reader, and how
/// many bytes these batches have. Unlike [`ReaderHandle::replay_last`] it reads each batch twice, so that an error names the
/// batch, and doesn't check entries.
///
/// # Errors
///
/// That of the first batch that doesn't fit those before it; `Memory`. The reader is gone then.
fn replay_readable_prefix(
    reader: ReaderHandle,
    part: FilePart<'_>,
) -> Result<(ReaderHandle, usize)> {
    match readable_front(part)? {
        (_, Some(e)) if e.kind == ErrorKind::Memory => Err(e),
        (front, _) => {
            let bytes = &part.bytes[..front];
            Ok((reader.replay(FilePart { bytes, ..part })?, front))
        }
    }
}
