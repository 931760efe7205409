//! The items of a log batch.

use super::{BatchIntoIter, BatchIter};
use crate::sys::ItemsHandle;
use crate::{Item, slot_of};
use std::collections::BTreeSet;
use std::fmt;

/// The items of a log batch, that was read or made here. If it was read, or given its place by
/// [`LogBatch::written`](crate::LogBatch::written), its entries have their places in the file, and its key values their file.
///
/// ```
/// use raft_recover::{Content, Item, LogBatch};
///
/// let mut batch = LogBatch::new()?;
/// batch.compact(7, 10)?;
/// batch.clean(8)?;
/// let items = batch.into_items()?;
/// assert_eq!(items.len(), 2);
/// for Item { region, content } in &items {
///     match content {
///         Content::Compact { index } => assert_eq!((region, index), (7, 10)),
///         content => assert_eq!((region, content), (8, Content::Clean)),
///     }
/// }
/// # Ok::<(), raft_recover::Error>(())
/// ```
///
/// Tables take a batch, so that it is applied once. Slots borrow it, since each applies only its own items:
///
/// ```compile_fail,E0382
/// use raft_recover::{LogBatch, Tables};
///
/// let items = LogBatch::new().unwrap().into_items().unwrap();
/// let mut tables = Tables::new().unwrap();
/// tables.apply_append(items).unwrap();
/// tables.apply_append(items).unwrap();
/// ```
pub struct Batch {
    handle: ItemsHandle,
}

impl Batch {
    /// Returns how many items there are. The entries of one item count as one.
    ///
    /// ```
    /// # use raft_recover::LogBatch;
    /// # let mut batch = LogBatch::new()?;
    /// batch.compact(7, 10)?;
    /// batch.clean(8)?;
    /// let items = batch.into_items()?;
    /// assert_eq!(items.len(), 2);
    /// # Ok::<(), raft_recover::Error>(())
    /// ```
    #[must_use]
    pub fn len(&self) -> usize {
        self.handle.len()
    }

    /// Tests whether there are no items.
    ///
    /// ```
    /// # use raft_recover::LogBatch;
    /// # let mut batch = LogBatch::new()?;
    /// batch.compact(7, 10)?;
    /// batch.clean(8)?;
    /// let items = batch.into_items()?;
    /// assert!(!items.is_empty());
    /// # Ok::<(), raft_recover::Error>(())
    /// ```
    #[must_use]
    pub fn is_empty(&self) -> bool {
        self.len() == 0
    }

    /// Returns a copy of the item at position `i`, counted from 0; `None` where there are no more than `i` items.
    ///
    /// ```
    /// # use raft_recover::LogBatch;
    /// # let mut batch = LogBatch::new()?;
    /// batch.compact(7, 10)?;
    /// batch.clean(8)?;
    /// let items = batch.into_items()?;
    /// assert_eq!(items.get(1).unwrap().region, 8);
    /// assert_eq!(items.get(2), None);
    /// # Ok::<(), raft_recover::Error>(())
    /// ```
    ///
    /// # Panics
    ///
    /// Where the item has an entry without a place: the batch was made here, and its items were taken out before
    /// [`LogBatch::written`](crate::LogBatch::written).
    #[must_use]
    pub fn get(&self, i: usize) -> Option<Item> {
        self.handle.item(i)
    }

    /// Returns an iterator over copies of the items, in order.
    ///
    /// ```
    /// # use raft_recover::LogBatch;
    /// # let mut batch = LogBatch::new()?;
    /// batch.compact(7, 10)?;
    /// batch.clean(8)?;
    /// let items = batch.into_items()?;
    /// let regions: Vec<_> = items.iter().map(|item| item.region).collect();
    /// assert_eq!(regions, [7, 8]);
    /// # Ok::<(), raft_recover::Error>(())
    /// ```
    ///
    /// # Panics
    ///
    /// The iterator does where [`Batch::get`] does.
    pub fn iter(&self) -> BatchIter<'_> {
        BatchIter {
            batch: self,
            rest: 0..self.len(),
        }
    }

    /// Returns the numbers of the slots that its regions belong to, each once, in rising order: those to which it has to be
    /// applied by [`Slot::apply_append`](crate::Slot::apply_append) or [`Slot::apply_rewrite`](crate::Slot::apply_rewrite).
    ///
    /// ```
    /// # use raft_recover::{LogBatch, slot_of};
    /// # let mut batch = LogBatch::new()?;
    /// batch.compact(7, 10)?;
    /// batch.clean(8)?;
    /// let items = batch.into_items()?;
    /// let slots: Vec<_> = items.slots();
    /// assert_eq!(slots.len(), 2);
    /// assert!(slots.contains(&slot_of(7)));
    /// # Ok::<(), raft_recover::Error>(())
    /// ```
    #[must_use]
    pub fn slots(&self) -> Vec<usize> {
        let regions = (0..self.len()).filter_map(|i| self.handle.region(i));
        let numbers: BTreeSet<_> = regions.map(slot_of).collect();
        Vec::from_iter(numbers)
    }

    /// Makes a batch of the library's handle of its items.
    pub(crate) fn from_handle(handle: ItemsHandle) -> Batch {
        Batch { handle }
    }

    /// Returns the library's handle of the items, for calls that only read them.
    pub(crate) fn handle(&self) -> &ItemsHandle {
        &self.handle
    }

    /// Returns the library's handle of the items, for a call that takes them.
    pub(crate) fn into_handle(self) -> ItemsHandle {
        self.handle
    }
}

impl fmt::Debug for Batch {
    /// Shows how many items there are.
    fn fmt(&self, f: &mut fmt::Formatter<'_>) -> fmt::Result {
        f.debug_struct("Batch")
            .field("len", &self.len())
            .finish_non_exhaustive()
    }
}

impl<'a> IntoIterator for &'a Batch {
    type Item = Item;
    type IntoIter = BatchIter<'a>;

    /// Returns the iterator of [`Batch::iter`].
    fn into_iter(self) -> BatchIter<'a> {
        self.iter()
    }
}

impl IntoIterator for Batch {
    type Item = Item;
    type IntoIter = BatchIntoIter;

    /// Returns an iterator over the items, in order, which owns the batch.
    fn into_iter(self) -> BatchIntoIter {
        let rest = 0..self.len();
        BatchIntoIter { batch: self, rest }
    }
}
