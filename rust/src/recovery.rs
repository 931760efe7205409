//! Recovers tables from files, on several threads.

use crate::{Context, FilePart, Queue, Result, Tables};
use std::{panic, thread};

/// Recovers the tables of a queue from parts of its files, in the order of their batches, on at most `workers` threads.
///
/// Each thread reads a stretch of whole parts, all of about the same number of bytes. So cut a few large files between batches
/// first, by [`batch_len`](crate::batch_len). What neighbors have read is merged in pairs. The caller's thread is one of the
/// workers, and 0 workers count as 1. There are never more threads than parts. Where a thread can't be started another one reads
/// its stretch.
///
/// ```
/// use raft_recover::{FilePart, LogBatch, LogFile, Queue, Version, recover};
///
/// let file = |seq| LogFile::new(Queue::Append, seq, Version::V2);
/// let written = |seq| {
///     let mut batch = LogBatch::new()?;
///     batch.add_entries(7, 10 * seq, &["an entry"; 10])?;
///     batch.finish()?;
///     batch.sign(file(seq))?;
///     batch.bytes()
/// };
/// let files = [written(1)?, written(2)?, written(3)?];
/// let parts: Vec<_> = (1..).zip(&files).map(|(seq, bytes)| FilePart::new(file(seq), bytes)).collect();
/// let tables = recover(&parts, Queue::Append, 2)?;
/// let expected = "7 entries 10..40 keys 0 append 1 rewrite -\ncleaned -\nlive 30 0\n";
/// assert_eq!(tables.to_string(), expected);
/// # Ok::<(), raft_recover::Error>(())
/// ```
///
/// # Errors
///
/// Those of [`Context::replay`] and [`Context::merge`]. Of several errors it is that of the first stretch.
pub fn recover(parts: &[FilePart<'_>], queue: Queue, workers: usize) -> Result<Tables> {
    read_parts(parts, queue, workers)?.finish()
}

/// Recovers the tables of both queues: the records of the append queue are put over those of the rewrite queue. Each queue is
/// read on at most `workers` threads, the rewrite queue first.
///
/// ```
/// use raft_recover::recover_both;
///
/// let tables = recover_both(&[], &[], 4)?;
/// assert_eq!(tables.to_string(), "cleaned -\nlive 0 0\n");
/// # Ok::<(), raft_recover::Error>(())
/// ```
///
/// # Errors
///
/// Those of [`recover`], and of [`Context::overlay`].
pub fn recover_both(
    rewrite: &[FilePart<'_>],
    append: &[FilePart<'_>],
    workers: usize,
) -> Result<Tables> {
    let mut both = read_parts(rewrite, Queue::Rewrite, workers)?;
    both.overlay(read_parts(append, Queue::Append, workers)?)?;
    both.finish()
}

/// Reads parts of a queue on at most `workers` threads, and returns the context that has read all of them.
///
/// # Errors
///
/// Those of [`recover`].
fn read_parts(parts: &[FilePart<'_>], queue: Queue, workers: usize) -> Result<Context> {
    read_stretches(&cut_into_stretches(parts, workers.max(1)), queue)
}

/// Reads stretches of parts, each on a thread of its own: it divides them in halves, reads both at once, and merges what was
/// read.
///
/// # Errors
///
/// That of the older half, or of the newer one, or of their merge.
fn read_stretches(stretches: &[&[FilePart<'_>]], queue: Queue) -> Result<Context> {
    match stretches {
        [] => Context::new(),
        [stretch] => replay_parts(stretch),
        _ => {
            let (older, newer) = stretches.split_at(stretches.len() / 2);
            let (older, newer) = call_both(
                || read_stretches(older, queue),
                || read_stretches(newer, queue),
            );
            let mut older = older?;
            older.merge(newer?, queue)?;
            Ok(older)
        }
    }
}

/// Reads parts one after another into a new context, and returns it.
///
/// # Errors
///
/// That of the first batch that is refused; `Memory`.
fn replay_parts(parts: &[FilePart<'_>]) -> Result<Context> {
    let mut context = Context::new()?;
    for part in parts {
        context.replay(*part)?;
    }
    Ok(context)
}

/// Makes the calls `first` and `second` at once, the latter on a new thread, and returns what both return. Where no thread can
/// be started it makes `second` after `first`. A panic of either is passed on.
fn call_both<A, B: Send>(
    first: impl FnOnce() -> A,
    second: impl FnOnce() -> B + Copy + Send,
) -> (A, B) {
    thread::scope(|scope| {
        let started = thread::Builder::new().spawn_scoped(scope, second);
        let first = first();
        let second = match started {
            Ok(thread) => thread.join().unwrap_or_else(|e| panic::resume_unwind(e)),
            Err(_) => second(),
        };
        (first, second)
    })
}

/// Divides parts into at most `count` stretches of whole parts, in order, each of about the same number of bytes. `count` is at
/// least 1.
fn cut_into_stretches<'p, 'a>(parts: &'p [FilePart<'a>], count: usize) -> Vec<&'p [FilePart<'a>]> {
    let total: u128 = parts.iter().map(|part| part.bytes.len() as u128).sum();
    let mut stretches = Vec::new();
    let (mut from, mut read) = (0, 0);
    for (i, part) in parts.iter().enumerate() {
        read += part.bytes.len() as u128;
        let is_last = stretches.len() + 1 == count;
        if !is_last && read * count as u128 >= total * (stretches.len() as u128 + 1) {
            stretches.push(&parts[from..=i]);
            from = i + 1;
        }
    }
    if from < parts.len() {
        stretches.push(&parts[from..]);
    }
    stretches
}
