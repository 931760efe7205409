//! Carries out the orders of the tables: the changes of files that a call on the tables asks for.

use super::turns::TurnGuard;
use super::{Engine, Event, locks};
use crate::sys::{EngineHandle, Order};
use crate::{Error, ErrorKind, FileId, Files, Queue, Result};
use std::collections::VecDeque;
use std::time::Instant;
use std::{mem, thread};

/// The turn of a thread. The thread that has it is the only one that makes calls which order changes of the files, and that
/// carries the orders out. If it panics in its turn the engine has failed.
pub(super) struct Turn<'a, F: Files> {
    engine: &'a Engine<F>,
    _turn: TurnGuard<'a>,
}

impl<F: Files> Drop for Turn<'_, F> {
    /// Ends the turn. If the thread is panicking, the engine has failed from then on.
    fn drop(&mut self) {
        if thread::panicking() {
            self.engine.fail_engine(Error::new(
                ErrorKind::Other,
                "Other Error: a thread panicked in its turn",
            ));
        }
    }
}

impl<F: Files> Engine<F> {
    /// Waits for a turn, and takes it. Orders that are left since one found no room are carried out first.
    ///
    /// # Errors
    ///
    /// `Failed` where the engine has failed. `Io` where an order that is left can't be carried out: where it finds no room again
    /// it stays; else the engine has failed.
    pub(super) fn wait_for_turn(&self) -> Result<Turn<'_, F>> {
        let turn = Turn {
            engine: self,
            _turn: self.turns.take_turn(),
        };
        self.check_intact()?;
        let undone = mem::take(&mut *locks::lock(&self.undone));
        turn.carry_out(undone)?;
        Ok(turn)
    }
}

impl<F: Files> Turn<'_, F> {
    /// Makes `call` on the tables, carries out what it ordered, and returns what it returned.
    ///
    /// # Errors
    ///
    /// Those of `call`: what it had ordered was carried out. `Io` where an order can't be carried out: the engine has failed
    /// then, unless the files are as they were before the order, which stays. `Memory` where the orders can't be taken: the
    /// engine has failed.
    pub(super) fn call_and_carry_out<T>(
        &self,
        call: impl FnOnce(&mut EngineHandle) -> Result<T>,
    ) -> Result<T> {
        let mut tables = self.engine.lock_tables();
        let result = call(&mut tables);
        if !tables.is_intact() {
            let reason = result.err().unwrap_or_else(Error::failed);
            return Err(self.engine.fail_engine(reason));
        }
        let orders = tables
            .take_orders()
            .map_err(|e| self.engine.fail_engine(e))?;
        self.note_unwritten_bytes(&orders); // before a reader can find what isn't written yet
        drop(tables);
        self.carry_out(orders.into())?;
        result
    }

    /// Carries out the orders of an opening: first files, and cuts of torn tails.
    ///
    /// # Errors
    ///
    /// Those of [`Turn::carry_out`].
    pub(super) fn carry_out_opening(&self, orders: Vec<Order>) -> Result<()> {
        self.note_unwritten_bytes(&orders);
        self.carry_out(orders.into())
    }

    /// Syncs a queue, though no call ordered it, so that a sync that is ordered later has less to do.
    ///
    /// # Errors
    ///
    /// Those of [`Turn::carry_out`].
    pub(super) fn sync_now(&self, queue: Queue) -> Result<()> {
        self.carry_out(VecDeque::from([Order::Sync(queue)]))
    }

    /// Notes the bytes that `orders` write, so that they are read from memory until they are in their file.
    fn note_unwritten_bytes(&self, orders: &[Order]) {
        let numbers = locks::lock(&self.engine.numbers);
        self.engine.unwritten.note_orders(orders, &numbers);
    }

    /// Carries orders out, one after another.
    ///
    /// # Errors
    ///
    /// `Io` for the first order that can't be carried out. If the files are as they were before it, that order and those behind
    /// it are kept for the next turn; else the engine has failed. Bytes that weren't written can still be read, from memory.
    fn carry_out(&self, mut orders: VecDeque<Order>) -> Result<()> {
        while let Some(order) = orders.front() {
            if let Err(e) = self.carry_out_order(order) {
                if !self.engine.files.is_as_before() {
                    return Err(self.engine.fail_files(e));
                }
                *locks::lock(&self.engine.undone) = orders;
                return Err(e);
            }
            orders.pop_front();
        }
        Ok(())
    }

    /// Makes the change of the files that an order asks for.
    ///
    /// # Errors
    ///
    /// `Io` with the file and an offset. Nothing is noted of the change then.
    fn carry_out_order(&self, order: &Order) -> Result<()> {
        match order {
            Order::Write(queue, bytes) => self.write_bytes(*queue, bytes),
            Order::Begin(file) => self.begin_file(*file),
            Order::Sync(queue) => self.sync_queue(*queue),
            Order::DeleteOldest(queue) => self.delete_oldest_file(*queue),
            Order::Cut(queue, len) => self.cut_last_file(*queue, *len),
        }
    }

    /// Writes bytes at the end of the last file of a queue, and notes its new length. From then on they are read from the
    /// file.
    ///
    /// # Errors
    ///
    /// Those of [`Files::write`], as `Io` with the file and the offset; `Failed` where the queue has no file.
    fn write_bytes(&self, queue: Queue, bytes: &[u8]) -> Result<()> {
        let (file, len) = self.last_file(queue)?;
        let written = self.engine.files.write(file, bytes);
        written.map_err(|e| Error::io("a batch can't be written", e).with_place(file, len))?;
        let len = len + bytes.len() as u64;
        locks::lock(&self.engine.numbers).set_len(file, len);
        self.engine.unwritten.forget_oldest();
        Ok(())
    }

    /// Makes a file, which becomes the last one of its queue, and notes it for the listener.
    ///
    /// # Errors
    ///
    /// Those of [`Files::rotate`], as `Io` with the file.
    fn begin_file(&self, file: FileId) -> Result<()> {
        let begun = self.engine.files.rotate(file);
        begun.map_err(|e| Error::io("the file can't be begun", e).with_place(file, 0))?;
        locks::lock(&self.engine.numbers).set_len(file, 0);
        self.engine.events.note(Event::Begun(file));
        Ok(())
    }

    /// Syncs a queue, counts the sync and the time that it took, and notes both for the listener.
    ///
    /// # Errors
    ///
    /// Those of [`Files::sync`], as `Io` with the last file and its end; `Failed` where the queue has no file.
    fn sync_queue(&self, queue: Queue) -> Result<()> {
        let (file, len) = self.last_file(queue)?;
        let begun = Instant::now();
        let synced = self.engine.files.sync(queue);
        synced.map_err(|e| Error::io("the file can't be synced", e).with_place(file, len))?;
        let took = begun.elapsed();
        let mut numbers = locks::lock(&self.engine.numbers);
        numbers.syncs += 1;
        numbers.sync_time += took;
        drop(numbers);
        self.engine.events.note(Event::Synced(file, took));
        Ok(())
    }

    /// Deletes the oldest file of a queue, and notes that for the listener.
    ///
    /// # Errors
    ///
    /// Those of [`Files::delete`], as `Io` with the file; `Failed` where the queue has no file.
    fn delete_oldest_file(&self, queue: Queue) -> Result<()> {
        let oldest = locks::lock(&self.engine.numbers).files(queue).next();
        let (file, _) = oldest.ok_or_else(Error::failed)?;
        let deleted = self.engine.files.delete(file);
        deleted.map_err(|e| Error::io("the file can't be deleted", e).with_place(file, 0))?;
        locks::lock(&self.engine.numbers).forget_file(file);
        self.engine.events.note(Event::Deleted(file));
        Ok(())
    }

    /// Cuts the last file of a queue to `len` bytes, if it has more, and notes the cut tail for the listener. Only an opening
    /// orders that.
    ///
    /// # Errors
    ///
    /// Those of [`Files::truncate`], as `Io` with the file; `Failed` where the queue has no file.
    fn cut_last_file(&self, queue: Queue, len: u64) -> Result<()> {
        let (file, _) = self.last_file(queue)?;
        let cut = self.engine.files.truncate(file, len);
        cut.map_err(|e| Error::io("the file can't be cut", e).with_place(file, len))?;
        locks::lock(&self.engine.numbers).note_cut(queue, len);
        let recovered = &self.engine.recovered;
        for cut in recovered.cuts().filter(|cut| cut.file == file) {
            self.engine.events.note(Event::Cut(cut.clone()));
        }
        Ok(())
    }

    /// Returns the last file of a queue, and its length in bytes.
    ///
    /// # Errors
    ///
    /// `Failed` where the queue has no file.
    fn last_file(&self, queue: Queue) -> Result<(FileId, u64)> {
        let last = locks::lock(&self.engine.numbers).last_file(queue);
        last.ok_or_else(Error::failed)
    }
}
