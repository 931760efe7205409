//! Moves records to the rewrite queue, and on to new files of it.

use super::entries::{read_block, read_entry_bytes};
use super::orders::Turn;
use super::{Engine, Event, locks};
use crate::sys::EngineHandle;
use crate::{Block, Error, ErrorKind, Files, Queue, Result};
use std::collections::VecDeque;

/// How many bytes of blocks [`Engine::rewrite`] lists at once: as many whole regions as it takes to reach them.
const LISTED_AT_ONCE: usize = 1 << 20;

/// How many bytes of blocks move in a turn: as many blocks as it takes to reach them.
const MOVED_AT_ONCE: usize = 1 << 18;

/// How many bytes move before the rewrite queue is synced. A deletion of files syncs it first, in one turn, and so has less to
/// sync.
const SYNCED_AT_ONCE: usize = 1 << 20;

/// About how many bytes the blocks have whose records move in one batch, if they are several. So the last blocks of a step, up to
/// so many bytes, may be part of a batch that the next step completes.
const OF_ONE_BATCH: usize = 8 << 10;

/// Blocks with their bytes, read before the turn in which they move. They are in the order in which they will be lent, unless
/// what moves has changed by then.
type ReadBlocks = VecDeque<(Block, Vec<u8>)>;

impl<F: Files> Engine<F> {
    /// Syncs the last file of the append queue, and begins a new one.
    ///
    /// ```
    /// # use raft_recover::{Engine, LogBatch, MemoryFiles, Options};
    /// # let engine = Engine::with_files(MemoryFiles::new(), Options::new())?;
    /// # let mut batch = LogBatch::new()?;
    /// batch.add_entries(7, 10, &["one", "two", "three"])?;
    /// batch.put(7, b"key", b"value")?;
    /// engine.write(&mut batch, true)?;
    /// engine.rotate()?;
    /// assert_eq!((engine.stats().append.files, engine.stats().append.last_file), (2, 2));
    /// # Ok::<(), raft_recover::Error>(())
    /// ```
    ///
    /// # Errors
    ///
    /// `InvalidArgument` where the engine is open for reading only; `Full` where the last file has the greatest number; `Memory`.
    /// Nothing has changed then. `Io`, `Failed`: the engine has failed, unless a folder has no room.
    pub fn rotate(&self) -> Result<()> {
        self.check_writable("rotate")?;
        self.tell_after(|| {
            self.wait_for_turn()?
                .call_and_carry_out(EngineHandle::rotate)
        })
    }

    /// Begins a new file of the append queue, in the given turn, where the last one has reached
    /// [`Options::target_file_size`](crate::Options::target_file_size). An error is dropped: a later write tries again, or finds
    /// that the engine has failed.
    pub(super) fn rotate_if_due(&self, turn: &Turn<'_, F>) {
        let last = locks::lock(&self.numbers).last_file(Queue::Append);
        if last.is_some_and(|(_, len)| len > 0 && len >= self.options.target_file_size) {
            let _ = turn.call_and_carry_out(EngineHandle::rotate);
        }
    }

    /// Moves all records that the tables have in append files up to number `gate` to the rewrite queue, so that [`Engine::purge`]
    /// can delete these files. What is read stays the same.
    ///
    /// ```
    /// # use raft_recover::{Engine, LogBatch, MemoryFiles, Options};
    /// # let engine = Engine::with_files(MemoryFiles::new(), Options::new())?;
    /// # let mut batch = LogBatch::new()?;
    /// batch.add_entries(7, 10, &["one", "two", "three"])?;
    /// batch.put(7, b"key", b"value")?;
    /// engine.write(&mut batch, true)?;
    /// engine.rotate()?;
    /// engine.rewrite(1)?;
    /// let stats = engine.stats();
    /// assert_eq!((stats.append.records, stats.rewrite.records), (0, 4));
    /// assert_eq!(engine.purge()?.append_files, 1);
    /// assert_eq!(engine.entry(7, 11)?.unwrap(), b"two");
    /// # Ok::<(), raft_recover::Error>(())
    /// ```
    ///
    /// # Errors
    ///
    /// - `InvalidArgument` where the engine is open for reading only, or a key is that of the group markers; `Full` where an
    ///   entry has 2^31 bytes or more; `Corruption` where bytes were damaged since they were written; `Io` where they can't be
    ///   read; `Memory`. Some records may have moved then.
    /// - `Io` of a change of the files, and `Failed`: the engine has failed, unless a folder has no room.
    pub fn rewrite(&self, gate: u64) -> Result<()> {
        self.check_writable("rewrite")?;
        self.tell_after(|| self.rewrite_up_to(gate))
    }

    /// Does what [`Engine::rewrite`] does, in steps of a turn each. Where the steps moved nothing of the blocks that were listed,
    /// these move in one turn: a single batch may need more blocks than a step has.
    ///
    /// # Errors
    ///
    /// Those of [`Engine::rewrite`]. Some records may have moved then.
    fn rewrite_up_to(&self, gate: u64) -> Result<()> {
        let last = locks::lock(&self.numbers).last_file(Queue::Append);
        let gate = last.map_or(gate, |(file, _)| gate.min(file.seq));
        let mut before = Vec::new();
        loop {
            let listed = self
                .lock_tables()
                .moving_blocks(Some(gate), LISTED_AT_ONCE)?;
            let is_over = if listed == before {
                self.rewrite_in_one_turn(gate)?
            } else {
                self.rewrite_in_steps(gate, &listed)?
            };
            if is_over {
                return Ok(());
            }
            before = listed;
        }
    }

    /// Moves in one turn what is in the first blocks that are to move, as many as are listed at once. Append files up to `gate`
    /// move. Returns whether nothing is left to move.
    ///
    /// # Errors
    ///
    /// Those of [`Engine::rewrite`]; `TryAgain` where even so many blocks don't suffice. Some records may have moved then.
    fn rewrite_in_one_turn(&self, gate: u64) -> Result<bool> {
        let read = self.read_blocks_ahead(Some(gate), LISTED_AT_ONCE)?;
        let turn = self.wait_for_turn()?;
        let lent = self.lend_blocks(Some(gate), LISTED_AT_ONCE, read)?;
        match self.call_and_note_moves(&turn, Queue::Append, |tables| tables.rewrite(gate)) {
            Ok(()) => Ok(true),
            Err(e) if e.kind == ErrorKind::TryAgain => {
                let left = self
                    .lock_tables()
                    .moving_blocks(Some(gate), LISTED_AT_ONCE)?;
                if left == lent { Err(e) } else { Ok(false) }
            }
            Err(e) => Err(self.name_damaged_block(e, &lent)),
        }
    }

    /// Moves what is in `blocks` and in append files up to `gate`, some blocks in each turn, and ends at a block that can't be
    /// read. Returns whether nothing is left to move up to `gate`.
    ///
    /// # Errors
    ///
    /// Those of [`Engine::rewrite`], but for `Io` of a block that can't be read. Some records may have moved then.
    fn rewrite_in_steps(&self, gate: u64, blocks: &[Block]) -> Result<bool> {
        let mut unsynced = 0;
        let mut rest = blocks;
        while !rest.is_empty() {
            let step = first_blocks(rest, MOVED_AT_ONCE);
            let Ok(read) = self.read_blocks(step) else {
                return Ok(false);
            };
            if self.rewrite_blocks(gate, &read)? {
                return Ok(true);
            }
            unsynced += total_len(step);
            if unsynced >= SYNCED_AT_ONCE {
                self.wait_for_turn()?.sync_now(Queue::Rewrite)?;
                unsynced = 0;
            }
            rest = blocks_of_next_step(rest, step.len());
        }
        Ok(false)
    }

    /// Moves in one turn what is in the blocks of `read`, given with their bytes, and in append files up to `gate`. Returns
    /// whether nothing is left to move up to `gate`.
    ///
    /// # Errors
    ///
    /// Those of [`Engine::rewrite`]. Some records may have moved then.
    fn rewrite_blocks(&self, gate: u64, read: &[(Block, Vec<u8>)]) -> Result<bool> {
        let turn = self.wait_for_turn()?;
        for (block, bytes) in read {
            self.lock_tables().lend_block(*block, bytes)?;
        }
        match self.call_and_note_moves(&turn, Queue::Append, |tables| tables.rewrite(gate)) {
            Ok(()) => Ok(true),
            Err(e) if e.kind == ErrorKind::TryAgain => Ok(false),
            Err(e) => {
                let lent: Vec<_> = read.iter().map(|(block, _)| *block).collect();
                Err(self.name_damaged_block(e, &lent))
            }
        }
    }

    /// Reads the bytes of blocks, and returns each block with its bytes, in the same order.
    ///
    /// # Errors
    ///
    /// Those of [`read_block`].
    fn read_blocks(&self, blocks: &[Block]) -> Result<Vec<(Block, Vec<u8>)>> {
        let read = |block: &Block| Ok((*block, read_block(self, *block)?));
        blocks.iter().map(read).collect()
    }

    /// Moves all records that the tables have in rewrite files to new ones, so that [`Engine::purge`] can delete the older ones.
    /// What is read stays the same. It pays where much of what these files have was compacted since. The records that move are in
    /// memory meanwhile, and all of them move in one turn.
    ///
    /// ```
    /// # use raft_recover::{Engine, LogBatch, MemoryFiles, Options};
    /// # let engine = Engine::with_files(MemoryFiles::new(), Options::new())?;
    /// # let mut batch = LogBatch::new()?;
    /// batch.add_entries(7, 10, &["one", "two", "three"])?;
    /// batch.put(7, b"key", b"value")?;
    /// engine.write(&mut batch, true)?;
    /// engine.rewrite(1)?;
    /// batch.compact(7, 12)?;
    /// engine.write(&mut batch, true)?;
    /// engine.rewrite_again()?;
    /// assert_eq!(engine.purge()?.rewrite_files, 1);
    /// assert_eq!(engine.entry(7, 12)?.unwrap(), b"three");
    /// # Ok::<(), raft_recover::Error>(())
    /// ```
    ///
    /// # Errors
    ///
    /// Those of [`Engine::rewrite`]; but the entries of a region that don't fit one batch are written in several.
    pub fn rewrite_again(&self) -> Result<()> {
        self.check_writable("rewrite_again")?;
        self.tell_after(|| {
            let read = self.read_blocks_ahead(None, usize::MAX)?;
            let turn = self.wait_for_turn()?;
            let lent = self.lend_blocks(None, usize::MAX, read)?;
            self.call_and_note_moves(&turn, Queue::Rewrite, EngineHandle::rewrite_again)
                .map_err(|e| self.name_damaged_block(e, &lent))
        })
    }

    /// Makes `call`, which moves records of the queue `from`, in the given turn, and notes for the listener how many moved.
    ///
    /// # Errors
    ///
    /// Those of [`Turn::call_and_carry_out`].
    fn call_and_note_moves(
        &self,
        turn: &Turn<'_, F>,
        from: Queue,
        call: impl FnOnce(&mut EngineHandle) -> Result<()>,
    ) -> Result<()> {
        let mut moved = 0;
        let result = turn.call_and_carry_out(|tables| {
            let before = tables.count_live(from);
            let result = call(tables);
            moved = match from {
                Queue::Append => before.saturating_sub(tables.count_live(from)),
                Queue::Rewrite if result.is_ok() => before,
                Queue::Rewrite => 0,
            };
            result
        });
        if moved > 0 {
            self.events.note(Event::Moved(from, moved));
        }
        result
    }

    /// Reads the blocks that [`Engine::lend_blocks`] will lend for the same `gate` and `max_size`, while other threads may
    /// write. A block that can't be read is left out.
    ///
    /// # Errors
    ///
    /// `Memory`, for the list of the blocks.
    fn read_blocks_ahead(&self, gate: Option<u64>, max_size: usize) -> Result<ReadBlocks> {
        let blocks = self.lock_tables().moving_blocks(gate, max_size)?;
        let read = blocks
            .into_iter()
            .filter_map(|block| Some((block, read_block(self, block).ok()?)));
        Ok(read.collect())
    }

    /// Lends to the tables the blocks that their next call to move records reads, and returns these blocks. With a `gate` they
    /// are those of append files up to its number, and without one those of the rewrite files: of whole regions, until they have
    /// `max_size` bytes. Blocks that aren't in `read` are read now.
    ///
    /// # Errors
    ///
    /// `Io` where a block can't be read, with its file and offset; `Memory`. Some blocks may be lent then.
    fn lend_blocks(
        &self,
        gate: Option<u64>,
        max_size: usize,
        mut read: ReadBlocks,
    ) -> Result<Vec<Block>> {
        let blocks = self.lock_tables().moving_blocks(gate, max_size)?;
        for block in &blocks {
            let at = read.iter().position(|(of, _)| of == block);
            let bytes = match at.and_then(|at| read.remove(at)) {
                Some((_, bytes)) => bytes,
                None => read_block(self, *block)?,
            };
            self.lock_tables().lend_block(*block, &bytes)?;
        }
        Ok(blocks)
    }

    /// Returns the error to report for `refused`, that of a call that moved records. If it is `Corruption` without a place,
    /// the blocks in `lent` are read again, and the error of the first damaged one is returned instead, which has its file and
    /// offset; else `refused` itself.
    fn name_damaged_block(&self, refused: Error, lent: &[Block]) -> Error {
        if refused.kind != ErrorKind::Corruption || refused.file.is_some() {
            return refused;
        }
        let damaged = lent
            .iter()
            .find_map(|block| read_entry_bytes(self, *block).err());
        damaged.unwrap_or(refused)
    }
}

/// Returns how many bytes `blocks` have together.
fn total_len(blocks: &[Block]) -> usize {
    blocks.iter().map(|block| block.len).sum()
}

/// Returns the first ones of `blocks`, as many as it takes to reach `max_size` bytes; all of them, if they have fewer.
fn first_blocks(blocks: &[Block], max_size: usize) -> &[Block] {
    let mut size = 0;
    let is_within = |block: &Block| {
        let is_within = size < max_size;
        size += block.len;
        is_within
    };
    let count = blocks.iter().copied().take_while(is_within).count();
    &blocks[..count]
}

/// Returns the blocks from position `count` on, and before them the last ones of the first `count` again that may be part of a
/// batch which these complete: up to [`OF_ONE_BATCH`] bytes, but never the very first block. None if there are no blocks from
/// `count` on.
fn blocks_of_next_step(blocks: &[Block], count: usize) -> &[Block] {
    if count == blocks.len() {
        return &[];
    }
    let mut size = 0;
    let is_of_last_batch = |block: &&Block| {
        size += block.len;
        size <= OF_ONE_BATCH
    };
    let again = blocks[1..count]
        .iter()
        .rev()
        .take_while(is_of_last_batch)
        .count();
    &blocks[count - again..]
}
