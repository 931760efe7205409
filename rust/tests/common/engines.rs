//! Engines over files in memory.

#![allow(dead_code)]

use raft_recover::{Ask, Engine, Files, LogBatch, MemoryFiles, Options, Result};

/// Opens an engine over new files in memory, with the options that are the default.
pub fn new_engine() -> Engine<MemoryFiles> {
    Engine::with_files(MemoryFiles::new(), Options::new()).unwrap()
}

/// Writes a batch with what `fill` adds to it, without a sync. Panics where an item is refused, or the write.
pub fn write_batch<F: Files>(engine: &Engine<F>, fill: impl FnOnce(&mut LogBatch) -> Result<()>) {
    let mut batch = LogBatch::new().unwrap();
    fill(&mut batch).unwrap();
    engine.write(&mut batch, false).unwrap();
}

/// Returns the asks of files behind the first `before` ones, each in words such as `sync append`, without the bytes of a write.
pub fn asks_as_words(files: &MemoryFiles, before: usize) -> Vec<String> {
    let asks = files.asks();
    let shown = asks[before..].iter().map(|ask| match ask {
        Ask::Write(file, _) => format!("write {file}"),
        Ask::Sync(queue) => format!("sync {queue}"),
        Ask::Begin(file) => format!("begin {file}"),
        Ask::Delete(file) => format!("delete {file}"),
        Ask::Cut(file, len) => format!("cut {file} to {len}"),
        _ => unreachable!(),
    });
    shown.collect()
}
