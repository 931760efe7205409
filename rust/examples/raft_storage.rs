//! The log of a Raft node, in a region of an engine that many nodes share: the six calls of raft-rs's `Storage`, and what a node
//! writes, which no crash takes away once the call returned `Ok`. `raft_storage <folder>` appends an entry.
//! An entry's term stands before its data. The hard state and what is known of the snapshot are key values. Terms are kept in
//! memory, so `term` reads no block. The region is the log's alone.

mod raft_rs;
use StorageError::*;
use raft_recover::{Engine, Files, LogBatch, Options};
pub use raft_rs::{ConfState, Entry, HardState, Result, SnapshotMetadata, Storage, StorageError};
use std::{env, sync::Arc};

/// The log of a node.
pub struct RaftStorage<F: Files> {
    engine: Arc<Engine<F>>,
    region: u64,
    snapshot: SnapshotMetadata,
    /// The term of the last entry in the snapshot, and of each entry of the log.
    terms: Vec<u64>,
}

/// The key of the hard state.
const HARD_STATE: &[u8] = b"hard state";
/// The key of the snapshot.
const SNAPSHOT: &[u8] = b"snapshot";

impl<F: Files> RaftStorage<F> {
    /// Opens the log in a region, or begins one, and reads the terms of its entries.
    pub fn open(engine: Arc<Engine<F>>, region: u64) -> Result<RaftStorage<F>> {
        let mut log = RaftStorage {
            engine,
            region,
            snapshot: SnapshotMetadata::default(),
            terms: vec![0],
        };
        if let [index, term, voters @ ..] = &log.read_u64s(SNAPSHOT)?[..] {
            (log.snapshot.index, log.snapshot.term) = (*index, *term);
            (log.snapshot.conf_state, log.terms) = (voters.to_vec(), vec![*term]);
        }
        let found = log.engine.entries(region, ..).map_err(Other)?;
        log.terms.extend(found.iter().map(|e| decode_entry(e).term));
        Ok(log)
    }

    /// Reads the numbers in the value of a key: none where there is no value.
    fn read_u64s(&self, key: &[u8]) -> Result<Vec<u64>> {
        let value = self.engine.get(self.region, key).map_err(Other)?;
        let numbers = value.as_deref().unwrap_or_default().as_chunks().0;
        Ok(numbers.iter().map(|n| u64::from_le_bytes(*n)).collect())
    }

    /// Writes a batch with what `add` adds to it, all of it or nothing, and syncs it.
    fn persist(&self, add: impl FnOnce(&mut LogBatch) -> raft_recover::Result<()>) -> Result<()> {
        let mut batch = LogBatch::new().map_err(Other)?;
        add(&mut batch).map_err(Other)?;
        self.engine.write(&mut batch, true).map_err(Other)
    }

    /// Appends entries with consecutive indexes, in place of those from the first one's index on.
    pub fn append(&mut self, entries: &[Entry]) -> Result<()> {
        let first = entries.first().map_or(self.last_index()? + 1, |e| e.index);
        self.term(first.wrapping_sub(1))?;
        let bytes = |entry: &Entry| [&entry.term.to_le_bytes(), &entry.data[..]].concat();
        let bytes: Vec<_> = entries.iter().map(bytes).collect();
        self.persist(|batch| batch.add_entries(self.region, first, &bytes))?;
        self.terms.truncate((first - self.snapshot.index) as usize);
        self.terms.extend(entries.iter().map(|entry| entry.term));
        Ok(())
    }

    /// Replaces the hard state.
    pub fn set_hard_state(&mut self, state: HardState) -> Result<()> {
        let bytes = [state.term, state.vote, state.commit].map(u64::to_le_bytes);
        self.persist(|batch| batch.put(self.region, HARD_STATE, &bytes.concat()))
    }

    /// Removes the entries in a snapshot that the node made, whose term is taken from the log.
    pub fn compact(&mut self, mut snapshot: SnapshotMetadata) -> Result<()> {
        snapshot.term = self.term(snapshot.index)?;
        let terms = self.terms[(snapshot.index - self.snapshot.index) as usize..].to_vec();
        self.put_snapshot(snapshot.index + 1, terms, snapshot)
    }

    /// Replaces all entries by a snapshot that was sent to the node.
    pub fn apply_snapshot(&mut self, snapshot: SnapshotMetadata) -> Result<()> {
        let newer = Some(snapshot).filter(|new| new.index > self.snapshot.index);
        let snapshot = newer.ok_or(SnapshotOutOfDate)?;
        self.put_snapshot(self.last_index()? + 1, vec![snapshot.term], snapshot)
    }

    /// Writes the snapshot `of`, and that entries below `end` are removed. `terms` are the terms from then on.
    fn put_snapshot(&mut self, end: u64, terms: Vec<u64>, of: SnapshotMetadata) -> Result<()> {
        let numbers = [&[of.index, of.term], &of.conf_state[..]].concat();
        let bytes: Vec<_> = numbers.iter().flat_map(|n| n.to_le_bytes()).collect();
        self.persist(|batch| {
            batch.compact(self.region, end)?;
            batch.put(self.region, SNAPSHOT, &bytes)
        })?;
        (self.snapshot, self.terms) = (of, terms);
        Ok(())
    }
}

impl<F: Files> Storage for RaftStorage<F> {
    fn initial_state(&self) -> Result<(HardState, ConfState)> {
        let [term, vote, commit] = self.read_u64s(HARD_STATE)?.try_into().unwrap_or_default();
        let commit = commit.max(self.snapshot.index); // what is in a snapshot is committed
        let conf_state = self.snapshot.conf_state.clone();
        Ok((HardState { term, vote, commit }, conf_state))
    }

    fn entries(&self, low: u64, high: u64, max_size: impl Into<Option<u64>>) -> Result<Vec<Entry>> {
        self.term(low.wrapping_sub(1))?;
        self.term(high.wrapping_sub(1))?;
        let size = max_size.into().unwrap_or(u64::MAX);
        let found = self.engine.entries_up_to(self.region, low..high, size);
        Ok(found.map_err(Other)?.iter().map(decode_entry).collect())
    }

    fn term(&self, index: u64) -> Result<u64> {
        let at = index.checked_sub(self.snapshot.index).ok_or(Compacted)?;
        self.terms.get(at as usize).copied().ok_or(Unavailable)
    }

    fn first_index(&self) -> Result<u64> {
        Ok(self.snapshot.index + 1)
    }

    fn last_index(&self) -> Result<u64> {
        Ok(self.snapshot.index + self.terms.len() as u64 - 1)
    }

    fn snapshot(&self, request_index: u64, _to: u64) -> Result<SnapshotMetadata> {
        let snapshot = Some(&self.snapshot).filter(|snapshot| snapshot.index >= request_index);
        snapshot.cloned().ok_or(SnapshotTemporarilyUnavailable)
    }
}

/// Makes an entry from its index and the bytes that `append` wrote: its term, then its data.
fn decode_entry((index, bytes): (u64, &[u8])) -> Entry {
    let (term, data) = bytes.split_first_chunk().expect("a term stands in front");
    let (term, data) = (u64::from_le_bytes(*term), data.to_vec());
    Entry { index, term, data }
}

fn main() -> Result<()> {
    let folder = env::args().nth(1).expect("raft_storage <folder>");
    let engine = Engine::open(folder, Options::new()).map_err(Other)?;
    let mut log = RaftStorage::open(Arc::new(engine), 1)?;
    let (index, term, data) = (log.last_index()? + 1, 1, b"an entry".to_vec());
    println!("entry {index}");
    log.append(&[Entry { index, term, data }])
}
