//! The types of raft-rs that a log store deals with. A program that uses that crate takes them from there.

/// What a node has to remember: its term, for whom it voted in it, and up to which index it knows entries to be committed.
#[derive(Clone, Copy, PartialEq, Eq, Debug, Default)]
pub struct HardState {
    pub term: u64,
    pub vote: u64,
    pub commit: u64,
}

/// The numbers of the members that vote.
pub type ConfState = Vec<u64>;

/// An entry of the log.
#[derive(Clone, PartialEq, Eq, Debug)]
pub struct Entry {
    pub index: u64,
    pub term: u64,
    pub data: Vec<u8>,
}

/// What a log store knows of a snapshot: its last entry, and the members at that point. The snapshot itself is kept by the node.
#[derive(Clone, PartialEq, Eq, Debug, Default)]
pub struct SnapshotMetadata {
    pub conf_state: ConfState,
    pub index: u64,
    pub term: u64,
}

/// Why a call of a log store was refused.
#[derive(Debug)]
pub enum StorageError {
    /// The entry is in the snapshot.
    Compacted,
    /// The log ends before that index.
    Unavailable,
    /// The log has a snapshot that reaches as far.
    SnapshotOutOfDate,
    /// The log's snapshot doesn't reach that far yet.
    SnapshotTemporarilyUnavailable,
    /// The engine returned this error.
    Other(raft_recover::Error),
}

/// The result of a call of a log.
pub type Result<T> = std::result::Result<T, StorageError>;

/// The calls of raft-rs's trait of this name, but for the context that its `entries` takes.
pub trait Storage {
    /// Returns the hard state and the members of the group, as they were stored last.
    fn initial_state(&self) -> Result<(HardState, ConfState)>;
    /// Returns the entries from `low` on and below `high`, as many as fit into `max_size` bytes, and the first one in any
    /// case. Errs with `Compacted` or `Unavailable` where the log doesn't have all of them.
    fn entries(&self, low: u64, high: u64, max_size: impl Into<Option<u64>>) -> Result<Vec<Entry>>;
    /// Returns the term of an entry, or of the last one in the snapshot. Errs with `Compacted` before that one, and with
    /// `Unavailable` behind the last entry.
    fn term(&self, index: u64) -> Result<u64>;
    /// Returns the index after the last entry in the snapshot.
    fn first_index(&self) -> Result<u64>;
    /// Returns the index of the last entry; without entries that of the last one in the snapshot.
    fn last_index(&self) -> Result<u64>;
    /// Returns the snapshot for node `to`. Errs with `SnapshotTemporarilyUnavailable` where it doesn't reach
    /// `request_index`.
    fn snapshot(&self, request_index: u64, to: u64) -> Result<SnapshotMetadata>;
}
