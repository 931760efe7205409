//! A group of batches, which one thread writes.

use super::{Commit, Commits};
use crate::Result;
use crate::engine::locks;
use std::mem;

/// The batches that a leading thread has taken to write. When the group is dropped all of their threads go on; a batch without a
/// result counts as failed. Only batches whose sync was left to another thread stay in the line.
#[derive(Debug)]
pub(in crate::engine) struct Group<'a> {
    /// The line that the batches are from.
    commits: &'a Commits,
    /// The ticket of the leader's own batch.
    leader: u64,
    /// The batches that are to be written.
    taken: Vec<Commit>,
    /// The batches that were written, and wait for a sync.
    unsynced: Vec<Commit>,
    /// Whether that sync is left to one of their threads.
    is_handed_on: bool,
}

impl<'a> Group<'a> {
    /// Makes the group that the thread with the ticket `leader` leads. It has no batches yet.
    pub(super) fn with_leader(commits: &'a Commits, leader: u64) -> Group<'a> {
        Group {
            commits,
            leader,
            taken: Vec::new(),
            unsynced: Vec::new(),
            is_handed_on: false,
        }
    }

    /// Takes all batches that wait in the line by now, to be written or to be synced.
    pub(in crate::engine) fn take_waiting(&mut self) {
        let mut line = locks::lock(&self.commits.line);
        self.taken.append(&mut line.waiting);
        self.unsynced.append(&mut line.unsynced);
    }

    /// Returns the batches that are to be written, in the order in which they were handed in.
    pub(in crate::engine) fn commits(&mut self) -> &mut [Commit] {
        &mut self.taken
    }

    /// Returns how many of the batches that were to be written had items and were written.
    pub(in crate::engine) fn count_written(&self) -> u64 {
        self.taken.iter().filter(|commit| commit.is_written).count() as u64
    }

    /// Lets the threads go on whose batches were refused, or needn't be synced. All other batches wait for a sync from then on;
    /// none is to be written any more.
    pub(in crate::engine) fn release_unsynced(&mut self) {
        let mut taken = mem::take(&mut self.taken);
        for commit in taken.iter_mut().filter(|commit| !commit.sync) {
            commit.result.get_or_insert(Ok(()));
        }
        let over = taken.extract_if(.., |commit| commit.result.is_some());
        self.commits
            .change_line_and_wake(|line| line.over.extend(over));
        self.unsynced.append(&mut taken);
    }

    /// Claims the sync for the leader, if its own batch waits for one, and returns whether it does. If not, the batches that
    /// wait for a sync are left to their threads, one of which leads next.
    pub(in crate::engine) fn claim_sync(&mut self) -> bool {
        let mut unsynced = self.unsynced.iter();
        let is_due = unsynced.any(|commit| commit.ticket == self.leader);
        self.is_handed_on = !is_due;
        is_due
    }

    /// Lets the threads of all batches go on that are left in the group. Each batch without a result gets `result` first.
    pub(in crate::engine) fn finish_with_result(&mut self, result: &Result<()>) {
        let mut all = mem::take(&mut self.taken);
        all.append(&mut self.unsynced);
        for commit in &mut all {
            commit.result.get_or_insert_with(|| result.clone());
        }
        self.commits
            .change_line_and_wake(|line| line.over.append(&mut all));
    }
}

impl Drop for Group<'_> {
    /// Lets the threads of all batches go on, but for those whose sync is left to another thread, and ends the leading.
    fn drop(&mut self) {
        self.commits.change_line_and_wake(|line| {
            line.over.append(&mut self.taken);
            let unsynced = if self.is_handed_on {
                &mut line.unsynced
            } else {
                &mut line.over
            };
            unsynced.append(&mut self.unsynced);
            line.is_led = false;
        });
    }
}
