//! Reads the files that are found when an engine is opened.

use super::Recovered;
use super::numbers::Numbers;
use crate::sys::{EngineHandle, Order, ReadFiles, open_engine};
use crate::{CutTail, Error, FileId, Files, Options, Queue, RecoveryMode, Result};

mod damaged_tail;
mod file_pieces;
mod file_reading;
mod queue_reading;
mod stretches;
mod worker;

use damaged_tail::find_damaged_tail;
use queue_reading::read_queue;

/// The files of both queues that were found, read to their ends, or up to a batch that can't be read, with the length of each.
pub(super) struct Found {
    append: ReadFiles,
    rewrite: ReadFiles,
    numbers: Numbers,
}

/// What an opening gives, before anything was done to the files.
#[derive(Debug)]
pub(super) struct Opened {
    /// The tables.
    pub(super) tables: EngineHandle,
    /// The lengths of the files as they were found.
    pub(super) numbers: Numbers,
    /// What has to be done to the files before the tables are used: first files, and cuts.
    pub(super) orders: Vec<Order>,
    /// What couldn't be read.
    pub(super) recovered: Recovered,
}

impl Found {
    /// Lists the files of both queues, and reads them, those of the rewrite queue first.
    ///
    /// # Errors
    ///
    /// `Io` where files can't be listed; `Corruption` where one is missing between two others; those of [`read_queue()`].
    pub(super) fn read(files: &impl Files, options: &Options) -> Result<Found> {
        Found::read_up_to_cut(files, options, None)
    }

    /// Lists and reads the files of both queues, as [`Found::read`] does; but the file of `cut`, where there is one, only up
    /// to the offset of the cut. `numbers` keeps the full length of that file, which isn't cut yet.
    ///
    /// # Errors
    ///
    /// Those of [`Found::read`].
    fn read_up_to_cut(
        files: &impl Files,
        options: &Options,
        cut: Option<&CutTail>,
    ) -> Result<Found> {
        let mut numbers = Numbers::default();
        let mut read = |queue| {
            let mut listed = files
                .list(queue)
                .map_err(|e| Error::io(format_args!("the {queue} files can't be listed"), e))?;
            check_no_file_is_missing(queue, &listed)?;
            for (seq, len) in &mut listed {
                let file = FileId::new(queue, *seq);
                numbers.set_len(file, *len);
                if let Some(cut) = cut.filter(|cut| cut.file == file) {
                    *len = cut.offset;
                }
            }
            read_queue(files, queue, &listed, options)
        };
        let (rewrite, append) = (read(Queue::Rewrite)?, read(Queue::Append)?);
        Ok(Found {
            append,
            rewrite,
            numbers,
        })
    }

    /// Opens the tables over the files, in the version and the mode of the options. Nothing is done to the files.
    ///
    /// # Errors
    ///
    /// `Corruption` where the mode doesn't allow to cut off the tail of a queue's last file, that file is of the other version,
    /// or the numbers of files don't rise; `InvalidArgument` where the batches of an atomic group don't stand in a row in one
    /// file; `Full`; `Memory`.
    pub(super) fn open(self, options: &Options) -> Result<Opened> {
        let (version, mode) = (options.version, options.recovery_mode);
        let (mut tables, recovered) = open_engine(self.append, self.rewrite, version, mode)?;
        let orders = tables.take_orders()?;
        Ok(Opened {
            tables,
            numbers: self.numbers,
            orders,
            recovered,
        })
    }
}

impl Opened {
    /// Leaves out all batches at the end of the last append file whose entries are damaged, if no sound batch stands behind
    /// them: the files are read once more without these, and `orders` begins with the cut of that file and a sync of its
    /// queue. Nothing is done to the files yet.
    ///
    /// # Errors
    ///
    /// `Corruption` for the first of these batches in the mode `AbsoluteConsistency`; those of [`Found::read`] and
    /// [`Found::open`].
    pub(super) fn without_damaged_tail(
        self,
        files: &impl Files,
        options: &Options,
    ) -> Result<Opened> {
        let Some((_, len)) = self.numbers.last_file(Queue::Append) else {
            return Ok(self);
        };
        let end = self.recovered.append.as_ref().map_or(len, |cut| cut.offset);
        let Some(cut) = find_damaged_tail(files, &self.recovered.damaged, end, len)? else {
            return Ok(self);
        };
        if options.recovery_mode == RecoveryMode::AbsoluteConsistency {
            return Err(cut.reason.unwrap_or_else(Error::failed));
        }
        drop(self); // its tables are freed before others are made
        let mut opened = Found::read_up_to_cut(files, options, Some(&cut))?.open(options)?;
        let (cut_off, sync) = (
            Order::Cut(Queue::Append, cut.offset),
            Order::Sync(Queue::Append),
        );
        opened.orders.splice(0..0, [cut_off, sync]);
        opened.recovered.append = Some(cut);
        Ok(opened)
    }
}

/// Checks that no file of a queue is missing between two others. `listed` has the number and the length of each, oldest first.
/// Each new file gets the next number, and the oldest file is deleted first, so a gap means that somebody took a file away.
///
/// # Errors
///
/// `Corruption`, with the first file that is missing.
fn check_no_file_is_missing(queue: Queue, listed: &[(u64, u64)]) -> Result<()> {
    for pair in listed.windows(2) {
        let (before, after) = (pair[0].0, pair[1].0);
        if after > before && after - before > 1 {
            let file = FileId::new(queue, before + 1);
            let text = format!("it is missing, files {before} and {after} are there");
            return Err(Error::corruption(file, 0, &text));
        }
    }
    Ok(())
}
