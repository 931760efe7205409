//! An engine that keeps the logs of many Raft groups in files, and loses nothing that was synced, whenever the machine crashes.
//! And the layer below it: recovery of raft-engine's tables from log files on several threads, and these tables.
//!
//! All that reads bytes, changes tables and decides what files are to have is the static library `raft_ffi`, each function of
//! which is proved to meet its contract. This crate is a thin safe layer over it, with no dependency but std. It opens files and
//! starts threads ([`Engine::open`], [`recover`], [`recover_both`]); the library does neither.
//!
//! ```
//! use raft_recover::{Engine, LogBatch, Options};
//!
//! # let folder = std::env::temp_dir().join(format!("raft-recover-lib-{}", std::process::id()));
//! let engine = Engine::open(&folder, Options::new())?;
//! let mut batch = LogBatch::new()?;
//! batch.add_entries(7, 1, &["an entry", "another one"])?;
//! batch.put(7, b"state", b"leader")?;
//! engine.write(&mut batch, true)?; // no crash loses it from here on
//! for entry in engine.entries(7, ..)? {
//!     println!("{}", String::from_utf8_lossy(&entry));
//! }
//! # std::fs::remove_dir_all(folder).unwrap();
//! # Ok::<(), raft_recover::Error>(())
//! ```
//!
//! | to | there is |
//! |---|---|
//! | keep logs in a folder | [`Engine`], [`Options`], [`LogBatch`] |
//! | keep them elsewhere; test what a crash leaves | [`Files`]; [`MemoryFiles`] |
//! | recover tables from files | [`recover`], [`recover_both`]; step by step [`Context`] |
//! | read the tables, and change them | [`Tables`]; under locks of an engine's own [`Slot`] and [`slot_of`] |
//! | write a batch to a file of your own | [`LogBatch`] |
//! | read batches, item by item | [`Batches`], [`Batch`], [`Item`] |
//! | find a torn tail, or cut a file | [`readable_front`], [`batch_len`] |
//!
//! # What is refused
//!
//! A call that can't be made returns an [`Error`], which names the file and the offset, the entry or the item that it is about.
//! Nothing has changed then, unless the documentation of the call says what it leaves. A call panics in one place alone, which
//! [`Batch::get`] names. The library never unwinds.
//!
//! # Memory
//!
//! With the feature `global-allocator` the library takes its memory from the program's own allocator, and else from `malloc`.
//! Where it gets none, the call is refused by an error of kind [`ErrorKind::Memory`].
//!
//! # Machines
//!
//! The library is compiled for Linux with glibc, on x86-64 with the instructions of x86-64-v2. It doesn't test for them. Elsewhere
//! the crate can be checked and documented, and a build says by one line what is missing.

#![deny(unsafe_code, clippy::undocumented_unsafe_blocks)]
#![warn(missing_docs, missing_debug_implementations, unreachable_pub)]

mod batches;
mod context;
mod engine;
mod entries;
mod error;
mod files;
mod log_batch;
mod messages;
mod recovery;
mod slot;
#[allow(unsafe_code)]
mod sys;
mod tables;

pub use batches::{
    Batch, BatchIntoIter, BatchIter, Batches, Content, Item, batch_len, crc32, readable_front,
};
pub use context::{Context, Kept};
pub use engine::{
    Ask, CutTail, DamagedBatch, Engine, Entries, Files, FolderFiles, Holder, Listener, MemoryFiles,
    Options, Pairs, Purged, QueueStats, QueueUsage, Recovered, RecoveryMode, Stats, Unsynced,
    Usage,
};
pub use entries::{Block, Entry, Pair};
pub use error::{Error, ErrorKind, Result};
pub use files::{FileId, FilePart, LogFile, Queue, Version};
pub use log_batch::{LogBatch, Stage};
pub use messages::Message;
pub use recovery::{recover, recover_both};
pub use slot::{SLOTS, Slot, slot_of};
pub use tables::{Summary, Tables};

/// The example of the README compiles.
#[cfg(doctest)]
#[doc = include_str!("../README.md")]
struct Readme;
