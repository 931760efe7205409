//! Iterators over the items of a batch.

use crate::{Batch, Item};
use std::iter::FusedIterator;
use std::ops::Range;

/// Iterates over copies of the items of a batch that is borrowed ([`Batch::iter`]).
///
/// ```
/// # use raft_recover::LogBatch;
/// # let mut batch = LogBatch::new()?;
/// batch.compact(7, 10)?;
/// batch.clean(8)?;
/// let items = batch.into_items()?;
/// let mut last_first = items.iter().rev();
/// assert_eq!(last_first.next().unwrap().region, 8);
/// assert_eq!(last_first.len(), 1);
/// # Ok::<(), raft_recover::Error>(())
/// ```
#[derive(Clone, Debug)]
#[must_use = "an iterator does nothing until it is asked"]
pub struct BatchIter<'a> {
    pub(super) batch: &'a Batch,
    /// The positions of the items that are left.
    pub(super) rest: Range<usize>,
}

/// Iterates over the items of a batch that is given away.
///
/// ```
/// # use raft_recover::LogBatch;
/// # let mut batch = LogBatch::new()?;
/// batch.compact(7, 10)?;
/// batch.clean(8)?;
/// let items = batch.into_items()?;
/// let regions: Vec<_> = items.into_iter().map(|item| item.region).collect();
/// assert_eq!(regions, [7, 8]);
/// # Ok::<(), raft_recover::Error>(())
/// ```
#[derive(Debug)]
#[must_use = "an iterator does nothing until it is asked"]
pub struct BatchIntoIter {
    pub(super) batch: Batch,
    /// The positions of the items that are left.
    pub(super) rest: Range<usize>,
}

impl Iterator for BatchIter<'_> {
    type Item = Item;

    /// Returns a copy of the first item that is left; `None` where none is. It panics where [`Batch::get`] does.
    fn next(&mut self) -> Option<Item> {
        self.batch.get(self.rest.next()?)
    }

    /// Returns how many items are left, exactly.
    fn size_hint(&self) -> (usize, Option<usize>) {
        self.rest.size_hint()
    }
}

impl DoubleEndedIterator for BatchIter<'_> {
    /// Returns a copy of the last item that is left; `None` where none is. It panics where [`Batch::get`] does.
    fn next_back(&mut self) -> Option<Item> {
        self.batch.get(self.rest.next_back()?)
    }
}

impl ExactSizeIterator for BatchIter<'_> {}

impl FusedIterator for BatchIter<'_> {}

impl Iterator for BatchIntoIter {
    type Item = Item;

    /// Returns the first item that is left; `None` where none is. It panics where [`Batch::get`] does.
    fn next(&mut self) -> Option<Item> {
        self.batch.get(self.rest.next()?)
    }

    /// Returns how many items are left, exactly.
    fn size_hint(&self) -> (usize, Option<usize>) {
        self.rest.size_hint()
    }
}

impl DoubleEndedIterator for BatchIntoIter {
    /// Returns the last item that is left; `None` where none is. It panics where [`Batch::get`] does.
    fn next_back(&mut self) -> Option<Item> {
        self.batch.get(self.rest.next_back()?)
    }
}

impl ExactSizeIterator for BatchIntoIter {}

impl FusedIterator for BatchIntoIter {}
