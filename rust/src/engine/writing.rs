//! Writes batches.

use super::commit::Group;
use super::orders::Turn;
use super::{Engine, locks};
use crate::sys::EngineHandle;
use crate::{Files, LogBatch, Result};

impl<F: Files> Engine<F> {
    /// Writes a batch. After an `Ok` the batch is empty and open, to be filled again. With `sync`, this batch and all that was
    /// written before are synced then. Whenever the machine crashes, the batch is in the files as a whole or not at all.
    ///
    /// ```
    /// # use raft_recover::{Engine, LogBatch, MemoryFiles, Options};
    /// # let engine = Engine::with_files(MemoryFiles::new(), Options::new())?;
    /// # let mut batch = LogBatch::new()?;
    /// batch.add_entries(7, 1, &["an entry"])?;
    /// engine.write(&mut batch, true)?;
    /// batch.add_entries(7, 2, &["another one"])?; // the batch is empty again
    /// engine.write(&mut batch, false)?;
    /// batch.add_entries(7, 9, &["behind a hole"])?;
    /// engine.write(&mut batch, true).unwrap_err();
    /// assert_eq!(engine.last_index(7)?, Some(2));
    /// # Ok::<(), raft_recover::Error>(())
    /// ```
    ///
    /// # Errors
    ///
    /// - `InvalidArgument` where the batch is no longer open, or the engine is open for reading only; `Corruption` where its
    ///   entries leave a hole behind those of their region, or begin below them; `Full` where it would have 2^56 bytes or more,
    ///   or its file more than 2^63; `Memory`. Nothing has changed then, neither the engine nor the batch. Only where memory ran
    ///   out half way the engine has failed: its next change returns `Failed`.
    /// - `Io` with [`Error::io_kind`](crate::Error::io_kind) `StorageFull`, or another one that says that there is no room in a
    ///   folder: the engine hasn't failed, unless it was a sync that found none: then the next change returns `Failed`. If this
    ///   batch found none, the engine has kept it, it is empty, and the next change writes it, such as this same call. If one
    ///   found none that was written earlier, this batch is as it was.
    /// - Any other `Io`, and `Failed`: the engine has failed, and the batch may be in the files or not.
    pub fn write(&self, batch: &mut LogBatch, sync: bool) -> Result<()> {
        self.check_writable("write")?;
        self.write_in_turn(batch, sync)
    }

    /// Syncs the append queue: once it returns `Ok`, no crash takes away what was written before the call.
    ///
    /// ```
    /// # use raft_recover::{Engine, LogBatch, MemoryFiles, Options};
    /// # let engine = Engine::with_files(MemoryFiles::new(), Options::new())?;
    /// # let mut batch = LogBatch::new()?;
    /// batch.put(7, b"key", b"value")?;
    /// engine.write(&mut batch, false)?;
    /// engine.sync()?; // no crash loses it from here on
    /// # Ok::<(), raft_recover::Error>(())
    /// ```
    ///
    /// # Errors
    ///
    /// `InvalidArgument` where the engine is open for reading only; `Memory`. Nothing has changed then, unless the next change
    /// returns `Failed`: then memory ran out half way, and the engine has failed. `Io`, `Failed`: the engine has failed, unless
    /// the `Io` says that there is no room for what was written earlier.
    pub fn sync(&self) -> Result<()> {
        self.check_writable("sync")?;
        self.write_in_turn(&mut LogBatch::new()?, true)
    }

    /// Hands in a batch, and waits until a thread has written it, this one or another, and synced it, if `sync` is true. Then
    /// it tells the listener what was done.
    ///
    /// # Errors
    ///
    /// Those of [`Engine::write`].
    fn write_in_turn(&self, batch: &mut LogBatch, sync: bool) -> Result<()> {
        self.check_intact()?;
        self.tell_after(|| {
            self.commits
                .hand_in_and_wait(batch, sync, |group| self.lead_group(group))
        })
    }

    /// Takes a turn, and writes the batches of all threads that wait, as [`Engine::write_group`] does. Where no turn can be
    /// had each batch gets the error. The result of each batch is noted with it.
    fn lead_group(&self, group: &mut Group<'_>) {
        let turn = self.wait_for_turn();
        group.take_waiting();
        match turn {
            Ok(turn) => self.write_group(&turn, group),
            Err(e) => group.finish_with_result(&Err(e)),
        }
    }

    /// Writes the batches of a group in one turn. Threads that want no sync may go on then; for the others it syncs, if the
    /// leader is one of them. Then it begins a new append file, if that is due. The result of each batch is noted with it.
    fn write_group(&self, turn: &Turn<'_, F>, group: &mut Group<'_>) {
        let written = turn.call_and_carry_out(|tables| {
            for commit in group.commits() {
                commit.write_to_tables(tables);
            }
            Ok(())
        });
        locks::lock(&self.numbers).batches += group.count_written();
        if written.is_err() {
            return group.finish_with_result(&written);
        }
        group.release_unsynced();
        if group.claim_sync() {
            let synced = turn.call_and_carry_out(EngineHandle::sync);
            group.finish_with_result(&synced);
        }
        self.rotate_if_due(turn);
    }
}
