//! Recoveries by raft-engine's own modules, and its tables as plain data: a module of the harness that builds them.

use super::read::{pool, replay_as_crate, replay_one, Part};
use crate::memtable::{EntryIndex, MemTables};
use crate::pipe_log::{FileId, LogQueue, Version};
use crate::GlobalStats;
use std::sync::Arc;

/// Log files in memory, and the threads that read them.
pub struct Files {
    queue: LogQueue,
    parts: Vec<Part>,
    workers: usize,
    pool: rayon::ThreadPool,
}

/// The tables of all regions.
pub struct Tables(MemTables, Arc<GlobalStats>);

/// An entry: its index; whether its file is of the rewrite queue; the number of the file; the offset and the length of its block;
/// its offset and its length within the block.
pub type Entry = (u64, bool, u64, u64, usize, u32, u32);

/// What the table of a region has, as plain data.
pub struct Region {
    pub id: u64,
    pub entries: Vec<Entry>,
    pub pairs: Vec<(Vec<u8>, Vec<u8>)>,
    pub append_seq: Option<u64>,
    pub rewrite_seq: Option<u64>,
}

impl Files {
    pub fn new(is_rewrite: bool, is_signed: bool, files: &[(u64, Vec<u8>)], workers: usize) -> Files {
        let queue = if is_rewrite { LogQueue::Rewrite } else { LogQueue::Append };
        let version = if is_signed { Version::V2 } else { Version::V1 };
        let parts = files.iter().map(|(seq, bytes)| Part {
            id: FileId { queue, seq: *seq },
            version,
            offset: 0,
            bytes: bytes.clone(),
        });
        Files { queue, parts: parts.collect(), workers, pool: pool(workers) }
    }

    /// Recovers the tables: with one worker by a single context, else on several threads, as raft-engine does.
    pub fn recover(&self) -> Result<Tables, String> {
        let context = match self.workers {
            1 => replay_one(&self.parts),
            n => self.pool.install(|| replay_as_crate(&self.parts, n, self.queue)),
        };
        let (tables, stats) = context.map_err(|e| e.to_string())?.finish();
        Ok(Tables(tables, stats))
    }
}

impl Tables {
    /// Returns what each region's table has, in the order of the regions' numbers.
    pub fn regions(&self) -> Vec<Region> {
        let mut found: Vec<Region> = self.0.collect(|_| true).iter().map(|t| region(&t.read())).collect();
        found.sort_by_key(|region| region.id);
        found
    }

    /// Returns the cleaned regions, in rising order.
    pub fn cleaned(&self) -> Vec<u64> {
        let mut cleaned = self.0.peer_cleaned();
        cleaned.sort_unstable();
        cleaned
    }

    /// Returns how many records are live in a queue.
    pub fn live(&self, is_rewrite: bool) -> usize {
        self.1.live_entries(if is_rewrite { LogQueue::Rewrite } else { LogQueue::Append })
    }
}

fn region(table: &crate::memtable::PeerTable) -> Region {
    let mut entries: Vec<EntryIndex> = Vec::new();
    if let (Some(first), Some(last)) = (table.first_index(), table.last_index()) {
        table.fetch_entries_to(first, last + 1, None, &mut entries).unwrap();
    }
    let entry = |e: EntryIndex| {
        let block = e.entries.unwrap();
        let is_rewrite = block.id.queue == LogQueue::Rewrite;
        (e.index, is_rewrite, block.id.seq, block.offset, block.len, e.entry_offset, e.entry_len)
    };
    Region {
        id: table.region_id(),
        entries: entries.into_iter().map(entry).collect(),
        pairs: table.peer_kvs().iter().map(|(k, (v, _))| (k.clone(), v.clone())).collect(),
        append_seq: table.min_file_seq(LogQueue::Append),
        rewrite_seq: table.min_file_seq(LogQueue::Rewrite),
    }
}
