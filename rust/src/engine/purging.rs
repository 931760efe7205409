//! Deletes files that nothing needs.

use super::{Engine, Holder, Purged, locks};
use crate::sys::EngineHandle;
use crate::{FileId, Files, Queue, Result};

impl<F: Files> Engine<F> {
    /// Deletes the files that no table needs, and returns which ([`Purged`]).
    ///
    /// Where the files of a queue have more bytes than [`Options::purge_above`] together, it also moves the records that keep
    /// them from being deleted. In the append queue the records of the oldest files move, until the files behind these have at
    /// most half of that. In the rewrite queue all records move, if at least as many of a hundred bytes as
    /// [`Options::purge_garbage`] says aren't needed. As needed count the bytes that this queue had when its records moved last,
    /// or, until they do, those of the entries in it and of all keys with their values.
    ///
    /// Files are deleted by this call alone. So a program makes it now and then, best from a thread of its own. Records of the
    /// append queue move 256 KiB or a block at a time, and threads that write get in between; those of the rewrite queue move all
    /// at once. Where there is nothing to do nothing is asked of the files.
    ///
    /// On a full disk: files that aren't needed go first, before records move. But what the batches in them took away has to be
    /// written to the rewrite queue before they go, so even that may be refused. The next change then does what was left undone.
    /// An engine that is opened anew writes of it only what concerns records in the rewrite queue, so its purge may make room.
    ///
    /// ```
    /// # use raft_recover::{Engine, LogBatch, MemoryFiles, Options};
    /// # let engine = Engine::with_files(MemoryFiles::new(), Options::new())?;
    /// # let mut batch = LogBatch::new()?;
    /// batch.add_entries(7, 10, &["one", "two", "three"])?;
    /// batch.put(7, b"key", b"value")?;
    /// engine.write(&mut batch, true)?;
    /// batch.clean(7)?;
    /// engine.write(&mut batch, true)?;
    /// engine.rotate()?;
    /// assert_eq!(engine.purge()?.append_files, 1);
    /// # Ok::<(), raft_recover::Error>(())
    /// ```
    ///
    /// [`Options::purge_above`]: crate::Options::purge_above
    /// [`Options::purge_garbage`]: crate::Options::purge_garbage
    ///
    /// # Errors
    ///
    /// Those of [`Engine::rewrite`]. Some files may be deleted then.
    pub fn purge(&self) -> Result<Purged> {
        self.check_writable("purge")?;
        let mut purged = self.delete_needless_files()?;
        if let Some(gate) = self.find_rewrite_gate() {
            self.rewrite(gate)?;
            purged += self.delete_needless_files()?;
        }
        if self.is_rewrite_again_due()? {
            self.rewrite_again()?;
            purged += self.delete_needless_files()?;
            let mut numbers = locks::lock(&self.numbers);
            numbers.needed_rewritten = Some(numbers.count_bytes(Queue::Rewrite));
        }
        purged.holders = self.find_holders()?;
        Ok(purged)
    }

    /// Tests whether [`Engine::purge`] has something to do: a file can be deleted, or records should move first. It looks at each
    /// region, and asks nothing of the files.
    ///
    /// ```
    /// # use raft_recover::{Engine, LogBatch, MemoryFiles, Options};
    /// # let engine = Engine::with_files(MemoryFiles::new(), Options::new())?;
    /// # let mut batch = LogBatch::new()?;
    /// batch.add_entries(7, 10, &["one", "two", "three"])?;
    /// engine.write(&mut batch, true)?;
    /// engine.rotate()?;
    /// assert!(!engine.needs_purge()?); // the first file has what is needed
    /// batch.compact(7, 13)?;
    /// engine.write(&mut batch, true)?;
    /// assert!(engine.needs_purge()?);
    /// engine.purge()?;
    /// assert!(!engine.needs_purge()?);
    /// # Ok::<(), raft_recover::Error>(())
    /// ```
    ///
    /// # Errors
    ///
    /// `Memory`; `Failed` where the engine can't be read.
    pub fn needs_purge(&self) -> Result<bool> {
        self.check_readable()?;
        Ok(self.find_rewrite_gate().is_some()
            || self.has_needless_file(Queue::Append)?
            || self.has_needless_file(Queue::Rewrite)?
            || self.is_rewrite_again_due()?)
    }

    /// Deletes the files of both queues that no table needs, gives their room on the disk back, and returns which they were,
    /// without holders.
    ///
    /// # Errors
    ///
    /// `Failed`, `Io`, `Memory`; `Full` where 2^56 bytes or more would have to be written to the rewrite queue before, or its
    /// last file has more than 2^63 bytes. Some files may be deleted then.
    fn delete_needless_files(&self) -> Result<Purged> {
        let purged = self.delete_needless_in_turn();
        self.files.free_deleted();
        purged
    }

    /// Deletes the files of both queues that no table needs, in one turn, and returns which they were, without holders. Their
    /// room on the disk may not be given back yet.
    ///
    /// # Errors
    ///
    /// Those of [`Engine::delete_needless_files`].
    fn delete_needless_in_turn(&self) -> Result<Purged> {
        self.tell_after(|| {
            let turn = self.wait_for_turn()?;
            let files = |queue| locks::lock(&self.numbers).files(queue).collect::<Vec<_>>();
            let (append, rewrite) = (files(Queue::Append), files(Queue::Rewrite));
            let append_files = turn.call_and_carry_out(EngineHandle::purge_expired_files)?;
            let rewrite_files = turn.call_and_carry_out(EngineHandle::purge_rewrite_files)?;
            let deleted = append[..append_files]
                .iter()
                .chain(&rewrite[..rewrite_files]);
            Ok(Purged {
                append_files,
                rewrite_files,
                files: deleted.map(|(file, _)| *file).collect(),
                holders: Vec::new(),
            })
        })
    }

    /// Returns the oldest file of a queue that has several; `None` where it has one or none.
    fn oldest_closed_file(&self, queue: Queue) -> Option<FileId> {
        let numbers = locks::lock(&self.numbers);
        let mut files = numbers.files(queue);
        let (oldest, _) = files.next()?;
        files.next().map(|_| oldest)
    }

    /// Tests whether a queue has several files, and no table needs the oldest one.
    ///
    /// # Errors
    ///
    /// `Memory`.
    fn has_needless_file(&self, queue: Queue) -> Result<bool> {
        let Some(oldest) = self.oldest_closed_file(queue) else {
            return Ok(false);
        };
        let regions = self.lock_tables().regions()?;
        Ok(!regions
            .into_iter()
            .any(|region| region_needs_file(&mut self.lock_tables_after_waiters(), region, oldest)))
    }

    /// Returns the regions that need the oldest append file, by rising numbers, each with what it has there. None where there is
    /// only one append file.
    ///
    /// # Errors
    ///
    /// `Memory`.
    fn find_holders(&self) -> Result<Vec<Holder>> {
        let Some(oldest) = self.oldest_closed_file(Queue::Append) else {
            return Ok(Vec::new());
        };
        let regions = self.lock_tables().regions()?;
        let holders = regions.into_iter().filter_map(|region| {
            let mut tables = self.lock_tables_after_waiters();
            region_needs_file(&mut tables, region, oldest)
                .then(|| holder_of(&mut tables, region, oldest))
        });
        Ok(holders.collect())
    }

    /// Returns the number of the append file up to which records have to move, so that the later files have at most half of
    /// [`Options::purge_above`](crate::Options::purge_above) together, or only the last one is later. `None` where the append
    /// files have no more bytes than that option allows, or there is a single one.
    fn find_rewrite_gate(&self) -> Option<u64> {
        let numbers = locks::lock(&self.numbers);
        let mut bytes = numbers.count_bytes(Queue::Append);
        if bytes <= self.options.purge_above {
            return None;
        }
        let (last, _) = numbers.last_file(Queue::Append)?;
        let closed = numbers
            .files(Queue::Append)
            .filter(|(file, _)| *file != last);
        let mut gate = None;
        for (file, len) in closed {
            if bytes <= self.options.purge_above / 2 {
                break;
            }
            bytes -= len;
            gate = Some(file.seq);
        }
        gate
    }

    /// Tests whether the records of the rewrite queue should move to new files: it has more bytes than
    /// [`Options::purge_above`](crate::Options::purge_above), and at least
    /// [`Options::purge_garbage`](crate::Options::purge_garbage) of a hundred aren't needed.
    ///
    /// # Errors
    ///
    /// `Memory`.
    fn is_rewrite_again_due(&self) -> Result<bool> {
        let (bytes, needed) = {
            let numbers = locks::lock(&self.numbers);
            (
                numbers.count_bytes(Queue::Rewrite),
                numbers.needed_rewritten,
            )
        };
        if bytes <= self.options.purge_above {
            return Ok(false);
        }
        let needed = needed.map_or_else(|| self.count_needed_rewritten_bytes(), Ok)?;
        let garbage = u128::from(bytes.saturating_sub(needed));
        Ok(garbage * 100 >= u128::from(bytes) * u128::from(self.options.purge_garbage))
    }

    /// Counts the bytes of the rewrite queue that the tables need, and notes that number as `needed_rewritten`, so that it
    /// isn't counted again.
    ///
    /// # Errors
    ///
    /// `Memory`.
    fn count_needed_rewritten_bytes(&self) -> Result<u64> {
        let mut needed = 0;
        let regions = self.lock_tables().regions()?;
        for region in regions {
            needed += self.count_rewritten_bytes(region)?;
        }
        locks::lock(&self.numbers).needed_rewritten = Some(needed);
        Ok(needed)
    }
}

/// Tests whether the table of `region` has a record in `file`, or in an older file of the same queue.
fn region_needs_file(tables: &mut EngineHandle, region: u64, file: FileId) -> bool {
    let oldest = tables.summary(region).and_then(|summary| match file.queue {
        Queue::Append => summary.append_seq,
        Queue::Rewrite => summary.rewrite_seq,
    });
    oldest.is_some_and(|seq| seq <= file.seq)
}

/// Returns how a region holds `file`, the oldest append file, in which it has a record: up to which index its entries have to
/// be compacted, and how many go then. A binary search finds the last entry in `file` or before it: of a region's entries
/// those in rewrite files come first, then those in append files, in the order of the files.
fn holder_of(tables: &mut EngineHandle, region: u64, file: FileId) -> Holder {
    let summary = tables.summary(region).unwrap_or_default();
    let first = summary.first_index.unwrap_or(0);
    let (mut from, mut to) = (first, first + summary.entries as u64);
    let place =
        |tables: &mut EngineHandle, index| tables.entry(region, index).map(|e| e.block.file);
    while from < to {
        let middle = from + (to - from) / 2;
        let is_behind =
            place(tables, middle).is_some_and(|at| at.queue == Queue::Append && at.seq > file.seq);
        (from, to) = if is_behind {
            (from, middle)
        } else {
            (middle + 1, to)
        };
    }
    let last = from.checked_sub(1).filter(|last| *last >= first);
    let is_held = last
        .and_then(|last| place(tables, last))
        .is_some_and(|at| at.queue == Queue::Append);
    Holder {
        region,
        file,
        compact_to: is_held.then_some(from),
        entries: if is_held { from - first } else { 0 },
    }
}
