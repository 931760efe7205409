//! Lengths of the files, and counts of what was done to them.

use super::QueueStats;
use crate::{FileId, Queue};
use std::collections::VecDeque;
use std::time::Duration;

/// The lengths of the files of both queues, and counts of what was done to them since they were opened. An order changes a length
/// once it is carried out.
#[derive(Debug, Default)]
pub(super) struct Numbers {
    /// For each queue the number and the length in bytes of each file, oldest first.
    lens: [VecDeque<(u64, u64)>; 2],
    /// How many bytes of the rewrite queue are taken to be needed: as many as it had when its records moved last, or, until they
    /// do, as many as a purge has counted; `None` before.
    pub(super) needed_rewritten: Option<u64>,
    /// How many batches with items were written.
    pub(super) batches: u64,
    /// How many syncs were made.
    pub(super) syncs: u64,
    /// How long they took together.
    pub(super) sync_time: Duration,
}

impl Numbers {
    /// Sets the length of a file to `len` bytes. A file that isn't known yet is added.
    pub(super) fn set_len(&mut self, file: FileId, len: u64) {
        let lens = &mut self.lens[file.queue as usize];
        match lens.binary_search_by_key(&file.seq, |(seq, _)| *seq) {
            Ok(at) => lens[at].1 = len,
            Err(at) => lens.insert(at, (file.seq, len)),
        }
    }

    /// Notes that the last file of a queue was cut to `len` bytes. Nothing changes if it has no more, or the queue has no file.
    pub(super) fn note_cut(&mut self, queue: Queue, len: u64) {
        if let Some((file, old)) = self.last_file(queue) {
            self.set_len(file, len.min(old));
        }
    }

    /// Removes a file, which was deleted.
    pub(super) fn forget_file(&mut self, file: FileId) {
        self.lens[file.queue as usize].retain(|(seq, _)| *seq != file.seq);
    }

    /// Returns the files of a queue, oldest first, each with its length in bytes.
    pub(super) fn files(&self, queue: Queue) -> impl DoubleEndedIterator<Item = (FileId, u64)> {
        let lens = self.lens[queue as usize].iter();
        lens.map(move |(seq, len)| (FileId::new(queue, *seq), *len))
    }

    /// Returns the last file of a queue, with its length in bytes; `None` where the queue has no file.
    pub(super) fn last_file(&self, queue: Queue) -> Option<(FileId, u64)> {
        self.files(queue).next_back()
    }

    /// Returns how many bytes the files of a queue have together.
    pub(super) fn count_bytes(&self, queue: Queue) -> u64 {
        self.files(queue).map(|(_, len)| len).sum()
    }

    /// Returns the statistics of a queue. `records` is how many live records the tables have there, which isn't known here.
    pub(super) fn stats_of(&self, queue: Queue, records: usize) -> QueueStats {
        QueueStats {
            first_file: self.files(queue).next().map_or(0, |(file, _)| file.seq),
            last_file: self.last_file(queue).map_or(0, |(file, _)| file.seq),
            files: self.files(queue).count(),
            bytes: self.count_bytes(queue),
            records,
        }
    }
}
