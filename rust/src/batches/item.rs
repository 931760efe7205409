//! Items of a log batch.

use crate::Entry;

/// An item of a log batch: a region, and what it does to it.
///
/// ```
/// use raft_recover::{Content, Item, LogBatch};
///
/// let mut batch = LogBatch::new()?;
/// batch.compact(7, 10)?;
/// let content = Content::Compact { index: 10 };
/// assert_eq!(batch.into_items()?.get(0), Some(Item { region: 7, content }));
/// # Ok::<(), raft_recover::Error>(())
/// ```
#[derive(Clone, PartialEq, Eq, Hash, Debug)]
pub struct Item {
    /// The region; in a group marker the number of the group.
    pub region: u64,
    /// What the item does to the region.
    pub content: Content,
}

/// What an item of a log batch does to its region. A *group marker*, which begins or ends an atomic group in the rewrite queue,
/// is a `Put` of the key `__\x01`, which no table has.
///
/// ```
/// use raft_recover::{Content, LogBatch};
///
/// let mut batch = LogBatch::new()?;
/// batch.put(7, b"key", b"value")?;
/// for item in batch.into_items()? {
///     match item.content {
///         Content::Put { key, value } => assert_eq!((key, value), (b"key".to_vec(), b"value".to_vec())),
///         content => panic!("{content:?}"),
///     }
/// }
/// # Ok::<(), raft_recover::Error>(())
/// ```
#[derive(Clone, PartialEq, Eq, Hash, Debug)]
pub enum Content {
    /// Adds entries, with consecutive indexes. Entries from the first of them on are replaced.
    Entries(Vec<Entry>),
    /// Removes all records.
    Clean,
    /// Removes the entries below the index.
    Compact {
        /// The first index that stays.
        index: u64,
    },
    /// Removes the entries from the index on.
    Truncate {
        /// The first index that is removed.
        index: u64,
    },
    /// Gives a key a value.
    Put {
        /// The key.
        key: Vec<u8>,
        /// The value.
        value: Vec<u8>,
    },
    /// Removes a key and its value.
    Delete {
        /// The key.
        key: Vec<u8>,
    },
}
