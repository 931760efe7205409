//! Options of an engine: how it is opened, and when it begins and deletes files.

use super::RecoveryMode;
use crate::Version;
use std::num::NonZero;
use std::thread;

/// Options of an engine: how its files are read when it is opened, and when it begins new files and deletes old ones.
///
/// ```
/// use raft_recover::{Options, Version};
///
/// let options = Options::new().recovery_threads(2).target_file_size(1 << 20);
/// assert_eq!(options.version, Version::V2);
/// assert_eq!(options.target_file_size, 1 << 20);
/// ```
#[derive(Clone, PartialEq, Eq, Hash, Debug)]
#[non_exhaustive]
#[must_use]
pub struct Options {
    /// The format of the files. Files of the other format are refused.
    pub version: Version,
    /// What an opening does where a queue's last file can't be read to its end.
    pub recovery_mode: RecoveryMode,
    /// How many threads read the files when they are opened, the caller's included. 0 counts as 1.
    pub recovery_threads: usize,
    /// The length in bytes at which the last append file is closed, and a new one is begun. A write that reaches it does so once
    /// the batch is written, so files get longer than this.
    pub target_file_size: u64,
    /// If the files of a queue have more bytes than this together, `Engine::purge` also moves records, so that old files can be
    /// deleted.
    pub purge_above: u64,
    /// In the rewrite queue `Engine::purge` moves records only if at least this many of a hundred bytes aren't needed. Above 100
    /// it never does.
    pub purge_garbage: u8,
}

impl Options {
    /// Makes the default options: version 2, torn tails are cut off, up to four threads, append files of 64 MiB. A purge moves
    /// records where the files of a queue have more than 1 GiB, and in the rewrite queue only if half of it or more isn't needed.
    ///
    /// ```
    /// # use raft_recover::Options;
    /// assert_eq!(Options::new(), Options::default());
    /// ```
    pub fn new() -> Options {
        Options {
            version: Version::V2,
            recovery_mode: RecoveryMode::default(),
            recovery_threads: thread::available_parallelism()
                .map_or(1, NonZero::get)
                .min(4),
            target_file_size: 64 << 20,
            purge_above: 1 << 30,
            purge_garbage: 50,
        }
    }

    /// Sets the format of the files.
    ///
    /// ```
    /// # use raft_recover::{Options, Version};
    /// assert_eq!(Options::new().version(Version::V1).version, Version::V1);
    /// ```
    pub fn version(self, version: Version) -> Options {
        Options { version, ..self }
    }

    /// Sets what an opening does where a queue's last file can't be read to its end.
    ///
    /// ```
    /// # use raft_recover::{Options, RecoveryMode};
    /// let mode = RecoveryMode::TolerateTailCorruption;
    /// assert_eq!(Options::new().recovery_mode(mode).recovery_mode, mode);
    /// ```
    pub fn recovery_mode(self, recovery_mode: RecoveryMode) -> Options {
        Options {
            recovery_mode,
            ..self
        }
    }

    /// Sets how many threads read the files when they are opened, the caller's included. Each takes memory for a piece of 4 MiB
    /// of a file, or for the longest batch, if that is longer.
    ///
    /// ```
    /// # use raft_recover::Options;
    /// assert_eq!(Options::new().recovery_threads(8).recovery_threads, 8);
    /// ```
    pub fn recovery_threads(self, recovery_threads: usize) -> Options {
        Options {
            recovery_threads,
            ..self
        }
    }

    /// Sets the length in bytes at which the last append file is closed, and a new one is begun.
    ///
    /// ```
    /// # use raft_recover::Options;
    /// assert_eq!(Options::new().target_file_size(1 << 20).target_file_size, 1 << 20);
    /// ```
    pub fn target_file_size(self, target_file_size: u64) -> Options {
        Options {
            target_file_size,
            ..self
        }
    }

    /// Sets how many bytes the files of a queue may have together before `Engine::purge` also moves records, so that old files
    /// can be deleted.
    ///
    /// ```
    /// # use raft_recover::Options;
    /// assert_eq!(Options::new().purge_above(1 << 20).purge_above, 1 << 20);
    /// ```
    pub fn purge_above(self, purge_above: u64) -> Options {
        Options {
            purge_above,
            ..self
        }
    }

    /// Sets how many of a hundred bytes of the rewrite queue have to be no longer needed, at least, before `Engine::purge` moves
    /// records there. Above 100 it never does.
    ///
    /// ```
    /// # use raft_recover::Options;
    /// assert_eq!(Options::new().purge_garbage(60).purge_garbage, 60);
    /// ```
    pub fn purge_garbage(self, purge_garbage: u8) -> Options {
        Options {
            purge_garbage,
            ..self
        }
    }
}

impl Default for Options {
    /// Makes the options of [`Options::new`].
    fn default() -> Options {
        Options::new()
    }
}
