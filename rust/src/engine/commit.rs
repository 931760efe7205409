//! Lets one thread write the batches that several threads hand in.

use super::locks;
use crate::sys::EngineHandle;
use crate::{Error, LogBatch, Result};
use std::mem;
use std::sync::{Condvar, Mutex};

mod group;

pub(super) use group::Group;

/// The batches that threads hand in to be written. One of these threads *leads*: it writes all batches that wait, while the
/// others wait for it. If it wants a sync itself, it makes one for all that want one; else a thread that wants one leads next.
#[derive(Debug, Default)]
pub(super) struct Commits {
    line: Mutex<Line>,
    /// Notified where the line has changed, so that threads which wait look at it again.
    is_over: Condvar,
}

/// The batches that were handed in, and the threads that wait.
#[derive(Debug, Default)]
struct Line {
    /// The ticket of the batch that is handed in next.
    next_ticket: u64,
    /// The batches that nobody has taken to write.
    waiting: Vec<Commit>,
    /// The batches that were written, and wait for a sync that no thread makes yet.
    unsynced: Vec<Commit>,
    /// The batches with a result, or of a group that ended without one. Their threads may go on.
    over: Vec<Commit>,
    /// Empty batches: a thread that hands in its own gets one of these in its place.
    spare: Vec<LogBatch>,
    /// Whether a thread leads.
    is_led: bool,
    /// How many threads wait for a notification.
    sleepers: usize,
}

/// A batch that a thread has handed in.
#[derive(Debug)]
pub(super) struct Commit {
    /// Which batch it is, in the order in which they were handed in.
    ticket: u64,
    pub(super) batch: LogBatch,
    /// Whether the batch is to be synced before its thread goes on.
    pub(super) sync: bool,
    /// Whether the batch was written, and had items.
    pub(super) is_written: bool,
    /// What the call of its thread returns; `None` as long as that isn't known.
    pub(super) result: Option<Result<()>>,
}

impl Commit {
    /// Writes the batch to the tables, which order that its bytes are written. An error is noted as the result; the batch is then
    /// as it was, unless the tables have failed.
    pub(super) fn write_to_tables(&mut self, tables: &mut EngineHandle) {
        let has_items = !self.batch.is_empty();
        match tables.write(self.batch.handle_mut()) {
            Ok(()) => {
                self.batch.note_written();
                self.is_written = has_items;
            }
            Err(e) => {
                let summary = |region| tables.summary(region);
                self.result = Some(Err(self.batch.name_refused_item(e, |_| true, summary)));
            }
        }
    }
}

impl Commits {
    /// Hands in a batch, and waits until a thread has written it, and synced it, if `sync` is true. Where no other thread
    /// leads, this one does, by the call `lead`; but a thread that wants no sync doesn't lead while batches wait for one.
    /// After an `Ok` the batch is empty.
    ///
    /// # Errors
    ///
    /// The error that the leader noted with the batch, which is then as the leader left it; `Failed` where the leader ended
    /// without noting a result; `Memory`, before the batch is handed in.
    pub(super) fn hand_in_and_wait(
        &self,
        batch: &mut LogBatch,
        sync: bool,
        lead: impl Fn(&mut Group<'_>),
    ) -> Result<()> {
        let mut line = locks::lock(&self.line);
        let spare = line.spare.pop().map_or_else(LogBatch::new, Ok)?;
        let ticket = line.push_batch(mem::replace(batch, spare), sync);
        loop {
            if let Some(over) = line.take_finished(ticket) {
                line.spare.push(mem::replace(batch, over.batch));
                return over.result.unwrap_or_else(|| Err(Error::failed()));
            }
            if line.is_led || (!sync && !line.unsynced.is_empty()) {
                line.sleepers += 1;
                line = locks::wait_for_notification(&self.is_over, line);
                line.sleepers -= 1;
                continue;
            }
            line.is_led = true;
            drop(line);
            lead(&mut Group::with_leader(self, ticket));
            line = locks::lock(&self.line);
        }
    }

    /// Changes the line of batches by `change`, and wakes the threads that wait for a change of it. If there are none, no call
    /// of the system is made.
    fn change_line_and_wake(&self, change: impl FnOnce(&mut Line)) {
        let mut line = locks::lock(&self.line);
        change(&mut line);
        let is_awaited = line.sleepers > 0;
        drop(line);
        if is_awaited {
            self.is_over.notify_all();
        }
    }
}

impl Line {
    /// Puts a batch at the end of the line, and returns its ticket. `sync` says whether it is to be synced.
    fn push_batch(&mut self, batch: LogBatch, sync: bool) -> u64 {
        let ticket = self.next_ticket;
        self.next_ticket += 1;
        self.waiting.push(Commit {
            ticket,
            batch,
            sync,
            is_written: false,
            result: None,
        });
        ticket
    }

    /// Takes the batch of a ticket out of the line, once its thread may go on; `None` before.
    fn take_finished(&mut self, ticket: u64) -> Option<Commit> {
        let at = self.over.iter().position(|over| over.ticket == ticket)?;
        Some(self.over.swap_remove(at))
    }
}
