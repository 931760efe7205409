//! Reads a file piece by piece.

use crate::{Error, FileId, Files, Result, batch_len};

/// How many bytes of a file are read at once, 4 MiB; more only where a batch is longer.
pub(super) const PIECE: usize = 4 << 20;

/// The length of the header of a batch, in bytes.
const HEADER_LEN: usize = 16;

/// The bytes with which the files of raft-engine begin, and no batch does. Without a test for them such a file would be taken for
/// a torn one, and cut.
const FOREIGN_HEADER: &[u8] = b"RAFT-LOG-FILE-HEADER";

/// A file that is read in pieces, one behind the other. Each ends where a batch ends, by the lengths in the headers of batches.
/// No byte is read twice.
pub(super) struct FilePieces<'a, F> {
    files: &'a F,
    file: FileId,
    /// The length of the file, in bytes.
    len: u64,
    /// The offset at which the next piece begins.
    at: u64,
    /// The bytes of the next piece that were read already, the beginning of a batch.
    begun: Vec<u8>,
    /// How many pieces were read.
    count: usize,
    /// Whether there is no further piece.
    is_done: bool,
}

/// A piece of a file. Its bytes are lent.
#[derive(Clone, Copy)]
pub(super) struct Piece<'r> {
    /// The offset in the file at which it begins.
    pub(super) offset: u64,
    /// Its bytes: whole batches, by their headers; or, as the last piece, what is left behind the last whole batch of the file.
    pub(super) bytes: &'r [u8],
    /// Whether it is the last piece of the file.
    pub(super) is_last: bool,
}

impl<'a, F: Files> FilePieces<'a, F> {
    /// Makes a reading of the pieces of a file of `len` bytes, from its start on. Nothing is read yet.
    pub(super) fn new(files: &'a F, file: FileId, len: u64) -> FilePieces<'a, F> {
        FilePieces {
            files,
            file,
            len,
            at: 0,
            begun: Vec::new(),
            count: 0,
            is_done: len == 0,
        }
    }

    /// Returns how many bytes of the file weren't read yet; 0 where there is no further piece.
    pub(super) fn bytes_left(&self) -> u64 {
        match self.is_done {
            true => 0,
            false => self.len - self.at - self.begun.len() as u64,
        }
    }

    /// Returns how many pieces were read.
    pub(super) fn count_read(&self) -> usize {
        self.count
    }

    /// Ends the reading: there is no further piece from then on.
    pub(super) fn stop(&mut self) {
        self.is_done = true;
    }

    /// Reads the next piece into `room`, which grows if need be, and lends it from there; `None` where there is no further piece.
    ///
    /// # Errors
    ///
    /// `Io` with file and offset; `InvalidArgument` where the file begins with the header of raft-engine; `Memory`. There is no
    /// further piece then.
    pub(super) fn read_next_piece<'r>(
        &mut self,
        room: &'r mut Vec<u8>,
    ) -> Result<Option<Piece<'r>>> {
        if self.is_done {
            return Ok(None);
        }
        self.is_done = true;
        let read = self.read_first_batch(room)?;
        let read = &room[..read];
        if self.at == 0 && read.starts_with(FOREIGN_HEADER) {
            let text = "the file is one of raft-engine, which begins with a header";
            return Err(Error::invalid_argument(text).with_place(self.file, 0));
        }
        let offset = self.at;
        let whole = whole_batches_len(read);
        let (bytes, begun) = read.split_at(if whole > 0 { whole } else { read.len() });
        self.keep_begun_batch(begun)?;
        self.at += bytes.len() as u64;
        self.count += 1;
        self.is_done = whole == 0 || self.at == self.len;
        Ok(Some(Piece {
            offset,
            bytes,
            is_last: self.is_done,
        }))
    }

    /// Reads into `room`, from its start on, until the first batch of the next piece is whole, or no more bytes would complete
    /// it. What was read of the piece before is copied there first. Returns how many bytes of `room` are read.
    ///
    /// # Errors
    ///
    /// `Io` and `Memory`, with file and offset.
    fn read_first_batch(&mut self, room: &mut Vec<u8>) -> Result<usize> {
        let mut read = self.begun.len();
        self.make_room(room, read)?;
        room[..read].copy_from_slice(&self.begun);
        loop {
            let offset = self.at + read as u64;
            let wanted = count_bytes_to_read(&room[..read], self.len - offset);
            if wanted == 0 {
                return Ok(read);
            }
            self.make_room(room, read + wanted)?;
            let piece = &mut room[read..read + wanted];
            read_exact_at(self.files, self.file, offset, piece)?;
            read += wanted;
        }
    }

    /// Keeps a copy of `begun`, the first bytes of the next piece, which were read already, in place of what was kept before.
    ///
    /// # Errors
    ///
    /// `Memory`, with file and offset.
    fn keep_begun_batch(&mut self, begun: &[u8]) -> Result<()> {
        self.begun.clear();
        self.begun
            .try_reserve_exact(begun.len())
            .map_err(|_| Error::memory().with_place(self.file, self.at))?;
        self.begun.extend_from_slice(begun);
        Ok(())
    }

    /// Lengthens `room` to at least `len` bytes, with zeros.
    ///
    /// # Errors
    ///
    /// `Memory`, with file and offset.
    fn make_room(&self, room: &mut Vec<u8>, len: usize) -> Result<()> {
        if len > room.len() {
            room.try_reserve_exact(len - room.len())
                .map_err(|_| Error::memory().with_place(self.file, self.at))?;
            room.resize(len, 0);
        }
        Ok(())
    }
}

/// Fills all of `bytes` with those of a file from `offset` on.
///
/// # Errors
///
/// `Io` with file and offset.
pub(super) fn read_exact_at(
    files: &impl Files,
    file: FileId,
    offset: u64,
    bytes: &mut [u8],
) -> Result<()> {
    files
        .read(file, offset, bytes)
        .map_err(|e| Error::io("the file can't be read", e).with_place(file, offset))
}

/// Returns how many of the bytes, from the first one on, are whole batches by the lengths in their headers. Whether these batches
/// can be read isn't tested.
fn whole_batches_len(bytes: &[u8]) -> usize {
    let mut at = 0;
    while let Some(len) = batch_len(&bytes[at..]) {
        if len > bytes.len() - at {
            break;
        }
        at += len;
    }
    at
}

/// Returns how many bytes to read behind `bytes`, where the file has `left` more: enough for a header or for the rest of the
/// first batch, and at least a piece ([`PIECE`]), if there are as many. Returns 0 if the first batch is whole already, no header
/// stands at the start of `bytes`, or the file ends before the batch does.
fn count_bytes_to_read(bytes: &[u8], left: u64) -> usize {
    let missing = match batch_len(bytes) {
        _ if bytes.len() < HEADER_LEN => 0,
        Some(len) if len > bytes.len() => len - bytes.len(),
        _ => return 0,
    };
    if missing as u64 > left {
        return 0;
    }
    let left = usize::try_from(left).unwrap_or(usize::MAX);
    missing.max(PIECE).min(left)
}
