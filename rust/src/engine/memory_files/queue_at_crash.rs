//! The files that a crash leaves.

use super::{Ask, Unsynced, cut_bytes};

/// A queue while its asks are gone through, one after another, to find what a crash leaves of it.
pub(super) struct QueueAtCrash<'a> {
    /// The files with all that is synced: the number and the bytes of each, oldest first. Deleted files are still among them.
    synced_files: Vec<(u64, Vec<u8>)>,
    /// The asks that aren't synced, oldest first, without the deletions.
    unsynced_asks: Vec<&'a Ask>,
    /// How many files were deleted, and that is synced.
    synced_deletions: usize,
    /// How many files were deleted, and that isn't synced.
    unsynced_deletions: usize,
}

impl<'a> QueueAtCrash<'a> {
    /// Makes the queue as it was found, before the first ask: all of its files are synced.
    pub(super) fn from_found(found: &[(u64, Vec<u8>)]) -> QueueAtCrash<'a> {
        QueueAtCrash {
            synced_files: found.to_vec(),
            unsynced_asks: Vec::new(),
            synced_deletions: 0,
            unsynced_deletions: 0,
        }
    }

    /// Applies the next ask of the queue. A sync, and a new file, make all asks before them synced; a new file leaves deletions
    /// as they are.
    pub(super) fn apply_ask(&mut self, ask: &'a Ask) {
        match ask {
            Ask::Sync(_) => {
                self.apply_steps(usize::MAX);
                self.synced_deletions += std::mem::take(&mut self.unsynced_deletions);
            }
            Ask::Begin(_) => {
                self.apply_steps(usize::MAX);
                self.unsynced_asks.push(ask);
            }
            Ask::Delete(_) => self.unsynced_deletions += 1,
            Ask::Write(..) | Ask::Cut(..) => self.unsynced_asks.push(ask),
        }
    }

    /// Applies the first `steps` steps of the asks that aren't synced, and drops the rest of these asks. [`Unsynced::steps`]
    /// says what a step is.
    fn apply_steps(&mut self, mut steps: usize) {
        for ask in self.unsynced_asks.drain(..) {
            let last = self.synced_files.last_mut().map(|(_, bytes)| bytes);
            match (ask, last) {
                (Ask::Write(_, bytes), Some(last)) => {
                    let front = bytes.len().min(steps);
                    last.extend_from_slice(&bytes[..front]);
                    steps -= front;
                }
                (Ask::Cut(_, len), Some(last)) if steps > 0 => {
                    cut_bytes(last, *len);
                    steps -= 1;
                }
                (Ask::Begin(file), _) if steps > 0 => {
                    self.synced_files.push((file.seq, Vec::new()));
                    steps -= 1;
                }
                _ => return,
            }
            if steps == 0 {
                return;
            }
        }
    }

    /// Returns the files that a crash leaves: all that is synced, and as much of the rest as `stays` says.
    pub(super) fn files_after_crash(mut self, stays: Unsynced) -> Vec<(u64, Vec<u8>)> {
        self.apply_steps(stays.steps);
        let gone = self.synced_deletions + self.unsynced_deletions.min(stays.deletions);
        self.synced_files
            .split_off(gone.min(self.synced_files.len()))
    }
}
