//! Reads the files of a queue by several threads.

use super::file_reading::FileReading;
use super::stretches::Stretches;
use super::worker::Worker;
use crate::sys::{ReadFiles, ReaderHandle, Size};
use crate::{Error, ErrorKind, Files, LogFile, Options, Queue, Result, Version};
use std::sync::atomic::{AtomicUsize, Ordering::Relaxed};
use std::{panic, thread};

/// How many bytes of a file have to be left at least, so that another thread joins in reading it. For fewer the merge of what
/// both have read costs more time than the thread saves.
const LEAST_SHARE: u64 = 1 << 20;

/// Reads the files of a queue, piece by piece, on as many threads as the options say, up to the first batch of the last file that
/// can't be read. `listed` has the number and the length of each file, oldest first. A piece is dropped once its batches are
/// replayed, so besides the tables each thread takes memory for a piece, or for the longest batch.
///
/// # Errors
///
/// That of the first batch that is refused, but for the tail of the last file; `Io` with file and offset; `InvalidArgument` where
/// a file begins with the header of raft-engine; `Memory`. Several threads may meet errors in any order. So after one that is
/// neither `Io` nor `Memory` a single thread reads the files once more, to find the first; and if that one names no file, once
/// more to name the batch.
pub(super) fn read_queue(
    files: &impl Files,
    queue: Queue,
    listed: &[(u64, u64)],
    options: &Options,
) -> Result<ReadFiles> {
    let threads = options.recovery_threads.max(1);
    let read = |threads, is_named| {
        let reading = QueueReading::new(files, queue, listed, options.version, is_named);
        reading.read_on_threads(threads)
    };
    let again = |refused: Error, is_named| read(1, is_named).err().unwrap_or(refused);
    let (reader, rest) = read(threads, false).map_err(|mut refused| {
        if refused.kind == ErrorKind::Memory || refused.io_kind().is_some() {
            return refused;
        }
        if threads > 1 {
            refused = again(refused, false);
        }
        match refused.file {
            Some(_) => refused,
            None => again(refused, true),
        }
    })?;
    let sizes = listed.iter().map(|&(seq, len)| Size { seq, len });
    Ok(ReadFiles {
        reader,
        sizes: sizes.collect(),
        rest,
    })
}

/// The files of a queue while threads read them.
pub(super) struct QueueReading<'a, F> {
    /// The files that have bytes, oldest first.
    pub(super) files: Vec<FileReading<'a, F>>,
    /// The position of the first file in which no thread has read.
    next: AtomicUsize,
    /// What was read, and where the reading ends.
    pub(super) stretches: Stretches,
}

impl<'a, F: Files> QueueReading<'a, F> {
    /// Makes the reading of the files in `listed`, each with its number and its length, of which nothing is read yet. `is_named`
    /// says whether an error has to name the batch that doesn't fit those before it.
    fn new(
        files: &'a F,
        queue: Queue,
        listed: &[(u64, u64)],
        version: Version,
        is_named: bool,
    ) -> QueueReading<'a, F> {
        let last = listed.last().map(|(seq, _)| *seq);
        let with_bytes = listed.iter().filter(|(_, len)| *len > 0);
        let reading = with_bytes.map(|&(seq, len)| {
            let file = LogFile::new(queue, seq, version);
            let is_last = last == Some(seq);
            FileReading::new(files, file, len, is_last, is_named)
        });
        QueueReading {
            files: reading.collect(),
            next: AtomicUsize::new(0),
            stretches: Stretches::new(queue),
        }
    }

    /// Reads the files on at most `threads` threads, the caller's included, and on fewer where some can't be started. Returns a
    /// reader that has read all, and the bytes of the last file from the first batch on that can't be read.
    ///
    /// # Errors
    ///
    /// That of the first piece that is refused, or of a merge; `Memory`.
    fn read_on_threads(self, threads: usize) -> Result<(ReaderHandle, Vec<u8>)> {
        let most: u64 = self.files.iter().map(FileReading::estimate_pieces).sum();
        let threads = threads.min(usize::try_from(most).unwrap_or(usize::MAX));
        thread::scope(|scope| {
            let others: Vec<_> = (1..threads)
                .map_while(|_| {
                    let work = || Worker::new(&self).run();
                    thread::Builder::new().spawn_scoped(scope, work).ok()
                })
                .collect();
            Worker::new(&self).run();
            for other in others {
                other.join().unwrap_or_else(|e| panic::resume_unwind(e));
            }
        });
        self.stretches.finish()
    }

    /// Returns the position of the file in which a thread is to read next: one in which none has read yet, or the one of which
    /// most is left; `None` where too little is left of each.
    pub(super) fn take_next_file(&self) -> Option<usize> {
        let next = self.next.fetch_add(1, Relaxed);
        if next < self.files.len() {
            return Some(next);
        }
        let left = self.files.iter().map(FileReading::bytes_left);
        let (file, left) = left.enumerate().max_by_key(|(_, left)| *left)?;
        (left >= LEAST_SHARE).then_some(file)
    }
}
