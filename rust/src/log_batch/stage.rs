//! How far a batch has come.

/// How far a batch has come.
///
/// ```
/// use raft_recover::{LogBatch, Stage};
///
/// let mut batch = LogBatch::new()?;
/// assert_eq!(batch.stage(), Stage::Open);
/// batch.finish()?;
/// assert_eq!(batch.stage(), Stage::Encoded);
/// # Ok::<(), raft_recover::Error>(())
/// ```
#[derive(Clone, Copy, PartialEq, Eq, PartialOrd, Ord, Hash, Debug)]
pub enum Stage {
    /// Items can be added.
    Open,
    /// The bytes are made, and no items can be added.
    Encoded,
    /// The bytes are made, and signed for a file.
    Signed,
}
