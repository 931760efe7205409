//! What a region's table has, in numbers.

/// What a region's table has, in numbers.
///
/// ```
/// use raft_recover::{FileId, Queue, Summary, Tables};
///
/// let mut tables = Tables::new()?;
/// tables.put(7, b"key", b"value", FileId::new(Queue::Append, 9))?;
/// let expected = Summary { entries: 0, keys: 1, first_index: None, append_seq: Some(9), rewrite_seq: None };
/// assert_eq!(tables.summary(7), Some(expected));
/// # Ok::<(), raft_recover::Error>(())
/// ```
#[derive(Clone, Copy, PartialEq, Eq, Hash, Debug, Default)]
pub struct Summary {
    /// How many entries the region has.
    pub entries: usize,
    /// How many keys with a value the region has.
    pub keys: usize,
    /// The least index of its entries; `None` where it has none.
    pub first_index: Option<u64>,
    /// The number of the oldest append file that it needs; `None` where it needs none.
    pub append_seq: Option<u64>,
    /// The number of the oldest rewrite file that it needs; `None` where it needs none.
    pub rewrite_seq: Option<u64>,
}
