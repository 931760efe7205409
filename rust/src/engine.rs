//! The engine: it keeps the logs of many regions in files, and tables of them in memory.

use crate::sys::{EngineHandle, Order};
use crate::{Error, Queue, Result};
use std::collections::VecDeque;
use std::fmt;
use std::path::Path;
use std::sync::{Arc, Mutex, MutexGuard, OnceLock};
use std::time::{Duration, Instant};

mod commit;
mod entries;
mod failure;
mod files;
mod folder_files;
mod found;
mod kept_blocks;
mod listening;
mod locks;
mod memory_files;
mod messages;
mod moving;
mod numbers;
mod options;
mod orders;
mod pairs;
mod purged;
mod purging;
mod reading;
mod recovered;
mod recovery_mode;
mod shared_tables;
mod stats;
mod turns;
mod unwritten;
mod usage;
mod writing;

pub use entries::Entries;
pub use files::Files;
pub use folder_files::FolderFiles;
pub use listening::Listener;
pub use memory_files::{Ask, MemoryFiles, Unsynced};
pub use options::Options;
pub use pairs::Pairs;
pub use purged::{Holder, Purged};
pub use recovered::{CutTail, DamagedBatch, Recovered};
pub use recovery_mode::RecoveryMode;
pub use stats::{QueueStats, Stats};
pub use usage::{QueueUsage, Usage};

use commit::Commits;
use failure::Failure;
use found::Found;
use kept_blocks::KeptBlocks;
use listening::{Event, Events};
use numbers::Numbers;
use shared_tables::SharedTables;
use turns::Turns;
use unwritten::Unwritten;

/// Keeps the logs of many regions: the files of all batches that were written, in a folder or behind any [`Files`], and tables in
/// memory that say what is where.
///
/// A *region* has entries with consecutive indexes, and keys with values. Once a batch is synced, no crash of the machine takes
/// it away. Of the batches written since then a crash leaves a prefix: the first ones, none skipped, each whole or not at all. An
/// engine that is opened over the files has these batches.
///
/// ```
/// use raft_recover::{Engine, LogBatch, Options};
///
/// # let path = std::env::temp_dir().join(format!("raft-recover-engine-{}", std::process::id()));
/// let engine = Engine::open(&path, Options::new())?;
/// let mut batch = LogBatch::new()?;
/// batch.add_entries(7, 1, &["an entry", "another one"])?;
/// batch.put(7, b"key", b"value")?;
/// engine.write(&mut batch, true)?; // no crash loses it from here on
/// drop(engine);
///
/// let engine = Engine::open(&path, Options::new())?;
/// assert_eq!(engine.entry(7, 2)?.unwrap(), b"another one");
/// assert_eq!(engine.get(7, b"key")?.unwrap(), b"value");
/// # std::fs::remove_dir_all(path).unwrap();
/// # Ok::<(), raft_recover::Error>(())
/// ```
///
/// It is `Send` and `Sync`: threads share one behind a `&` or an `Arc`. Where several write at the same time, one of them writes
/// the batches of all, and syncs once. Who reads waits neither for those who write nor for a sync.
///
/// ```
/// use raft_recover::{Engine, LogBatch, MemoryFiles, Options};
/// use std::thread;
///
/// let engine = Engine::with_files(MemoryFiles::new(), Options::new())?;
/// thread::scope(|scope| {
///     for region in 0..4 {
///         let engine = &engine;
///         scope.spawn(move || {
///             let mut batch = LogBatch::new()?;
///             batch.put(region, b"key", b"value")?;
///             engine.write(&mut batch, true)
///         });
///     }
/// });
/// assert_eq!(engine.regions()?, [0, 1, 2, 3]);
/// # Ok::<(), raft_recover::Error>(())
/// ```
///
/// What was written is read at once, synced or not. Dropping an engine syncs nothing. A call that is refused changes nothing,
/// unless its page says what it leaves.
///
/// Where a change of the files fails, and in few cases without memory, the engine *fails*: every later change returns `Failed`,
/// with the reason. (So after `Memory` the next change shows whether it has failed.) Drop it then, and open the files again, to
/// find what they have; after a failed sync start the machine again first ([`Files`] says why). If the files failed, reads go on:
/// they find all that was written, and perhaps what was being written just then, which a crash may take away. Otherwise reads
/// return `Failed` too.
///
/// Where a change finds no room in a folder, and the files are as they were before ([`Files::is_as_before`]), the engine hasn't
/// failed. All can be read. Every change first does what was left undone, and returns that `Io` as long as there is no room. So a
/// `write` that found no room is repeated by the same call: the engine has kept the batch, which is empty now.
///
/// Two threads can't write one batch, and an engine isn't made over files that threads can't share:
///
/// ```compile_fail,E0499
/// # use raft_recover::{Engine, LogBatch, MemoryFiles, Options};
/// let engine = Engine::with_files(MemoryFiles::new(), Options::new()).unwrap();
/// let mut batch = LogBatch::new().unwrap();
/// std::thread::scope(|scope| {
///     scope.spawn(|| engine.write(&mut batch, true));
///     scope.spawn(|| engine.write(&mut batch, true));
/// });
/// ```
///
/// ```compile_fail,E0277
/// # use raft_recover::{Engine, MemoryFiles, Options};
/// let files = std::rc::Rc::new(MemoryFiles::new());
/// let engine = Engine::with_files(files, Options::new()).unwrap();
/// ```
///
/// What an engine lends doesn't change its files, and its tables can't be reached:
///
/// ```compile_fail,E0594
/// # use raft_recover::{Engine, MemoryFiles, Options};
/// let engine = Engine::with_files(MemoryFiles::new(), Options::new()).unwrap();
/// *engine.files() = MemoryFiles::new();
/// ```
pub struct Engine<F: Files = FolderFiles> {
    files: F,
    options: Options,
    /// What the opening couldn't read: cut tails, and damaged batches.
    recovered: Recovered,
    /// How long the opening took.
    opening: Duration,
    /// Which records there are, and where.
    tables: SharedTables,
    /// Whose turn it is to change something: a turn lasts from a call that orders changes of the files until these are made.
    turns: Turns,
    /// The lengths of all files, and counts of what was done.
    numbers: Mutex<Numbers>,
    /// The bytes that were ordered to be written, and aren't in the files yet.
    unwritten: Unwritten,
    /// The orders that are left since one found no room: that one, and those behind it.
    undone: Mutex<VecDeque<Order>>,
    /// The entry blocks that were read last.
    kept_blocks: KeptBlocks,
    /// The batches that threads hand in to be written.
    commits: Commits,
    /// The listener, and what it is still to be told.
    events: Events,
    /// Whether every change is refused.
    is_read_only: bool,
    /// Why the engine failed; empty as long as it hasn't.
    failure: OnceLock<Failure>,
}

impl Engine {
    /// Opens the engine in a folder, which is made if it isn't there. Its files are read on several threads
    /// ([`Options::recovery_threads`]).
    ///
    /// A crash in the midst of a write leaves a *torn tail* at the end of a queue's last file. It is cut off, and kept in a file
    /// beside. A last batch whose header or items are damaged counts as a torn tail, unless its checksum is right for another
    /// file; so do batches at the end of the last append file whose entries are damaged. [`Engine::recovered`] says what was cut,
    /// and [`Options::recovery_mode`] may change what is.
    ///
    /// ```
    /// use raft_recover::{Engine, Options};
    ///
    /// # let folder = std::env::temp_dir().join(format!("raft-recover-open-{}", std::process::id()));
    /// let engine = Engine::open(&folder, Options::new())?;
    /// assert_eq!(engine.files().path(), folder);
    /// # std::fs::remove_dir_all(folder).unwrap();
    /// # Ok::<(), raft_recover::Error>(())
    /// ```
    ///
    /// # Errors
    ///
    /// Those of [`FolderFiles::open`] and [`Engine::with_files`].
    pub fn open(path: impl AsRef<Path>, options: Options) -> Result<Engine> {
        Engine::with_files(FolderFiles::open(path)?, options)
    }

    /// Opens the engine in a folder for reading only: each change is refused ([`Engine::with_files_read_only`] says which).
    /// Nothing in the folder is made, changed or synced, so the right to read is enough. Several may read a folder at a time, as
    /// long as no engine has it open that writes.
    ///
    /// ```
    /// use raft_recover::{Engine, ErrorKind, LogBatch, Options};
    ///
    /// # let folder = std::env::temp_dir().join(format!("raft-recover-read-only-{}", std::process::id()));
    /// let engine = Engine::open(&folder, Options::new())?;
    /// let mut batch = LogBatch::new()?;
    /// batch.put(7, b"key", b"value")?;
    /// engine.write(&mut batch, true)?;
    /// let refused = Engine::open_read_only(&folder, Options::new()).unwrap_err();
    /// assert_eq!(refused.kind, ErrorKind::TryAgain);
    /// drop(engine);
    ///
    /// let engine = Engine::open_read_only(&folder, Options::new())?;
    /// let another = Engine::open_read_only(&folder, Options::new())?;
    /// assert_eq!(another.get(7, b"key")?, engine.get(7, b"key")?);
    /// assert_eq!(engine.purge().unwrap_err().kind, ErrorKind::InvalidArgument);
    /// # std::fs::remove_dir_all(folder).unwrap();
    /// # Ok::<(), raft_recover::Error>(())
    /// ```
    ///
    /// # Errors
    ///
    /// Those of [`FolderFiles::open_read_only`] and [`Engine::with_files_read_only`].
    pub fn open_read_only(path: impl AsRef<Path>, options: Options) -> Result<Engine> {
        Engine::with_files_read_only(FolderFiles::open_read_only(path)?, options)
    }
}

impl<F: Files> Engine<F> {
    /// Opens an engine over files, which it reads on several threads ([`Options::recovery_threads`]). It makes the first file of
    /// a queue that has none, and cuts torn tails off, as [`Options::recovery_mode`] says.
    ///
    /// ```
    /// use raft_recover::{Engine, MemoryFiles, Options};
    ///
    /// let engine = Engine::with_files(MemoryFiles::new(), Options::new())?;
    /// assert_eq!(engine.regions()?, []);
    /// # Ok::<(), raft_recover::Error>(())
    /// ```
    ///
    /// # Errors
    ///
    /// - `Corruption` where the files are damaged: a file can't be read that isn't the last one of its queue; the last one can't,
    ///   and the [`RecoveryMode`] doesn't allow to cut off what is left; it is of the other version; a file is missing between
    ///   two others; the numbers of the files don't rise; or the entries of a batch of the last rewrite file are damaged. The
    ///   default mode cuts off what can be part of a single batch, or has no batch behind it: neither one that can be read nor
    ///   one that is signed for another file. With it go the last batches of the append file whose entries are damaged.
    /// - `InvalidArgument` where a file begins with the header of raft-engine, or the batches of an atomic group don't stand in a
    ///   row in one file.
    /// - `Codec` where a number in a batch can't be decoded; `Full` where a count or a length would pass its limit.
    /// - `Io` where the files can't be listed or read, or can't be changed; `Memory`.
    ///
    /// Unless a change of the files failed, nothing was asked of them but to be listed and read. If one failed, the files that
    /// are left still have all records that were found.
    pub fn with_files(files: F, options: Options) -> Result<Engine<F>> {
        Engine::open_files(files, options, None)
    }

    /// Opens an engine over files, for [`Engine::with_files`] and [`Engine::with_files_and_listener`]. It tells `listener`, if
    /// there is one, what the opening does to them.
    ///
    /// # Errors
    ///
    /// Those of [`Engine::with_files`].
    fn open_files(
        files: F,
        options: Options,
        listener: Option<Arc<dyn Listener>>,
    ) -> Result<Engine<F>> {
        let begun = Instant::now();
        let (mut engine, orders) = Engine::read_files(files, options)?;
        engine.events = Events::new(listener);
        engine.tell_after(|| engine.wait_for_turn()?.carry_out_opening(orders))?;
        engine.opening = begun.elapsed();
        Ok(engine)
    }

    /// Opens an engine over files that are only listed and read. What the [`RecoveryMode`] cuts off is left out in memory alone
    /// ([`Engine::recovered`] has it). So several engines may read the same files, as long as nobody changes them.
    ///
    /// These calls are refused with `InvalidArgument`, which names the call: `write`, `sync`, `rotate`, `rewrite`,
    /// `rewrite_again` and `purge`.
    ///
    /// ```
    /// use raft_recover::{Engine, MemoryFiles, Options};
    ///
    /// let files = MemoryFiles::found(vec![(1, b"torn".to_vec())], vec![]);
    /// let engine = Engine::with_files_read_only(files, Options::new())?;
    /// assert_eq!(engine.recovered().cuts().count(), 1);
    /// assert_eq!(engine.files().asked(), 0);
    /// let refused = engine.sync().unwrap_err();
    /// assert_eq!(refused.text, "Invalid Argument: sync: the engine is open for reading alone");
    /// # Ok::<(), raft_recover::Error>(())
    /// ```
    ///
    /// # Errors
    ///
    /// Those of [`Engine::with_files`], but for those of changes of the files.
    pub fn with_files_read_only(files: F, options: Options) -> Result<Engine<F>> {
        let begun = Instant::now();
        let (engine, orders) = Engine::read_files(files, options)?;
        for order in orders {
            if let Order::Cut(queue, len) = order {
                locks::lock(&engine.numbers).note_cut(queue, len);
            }
        }
        Ok(Engine {
            is_read_only: true,
            opening: begun.elapsed(),
            ..engine
        })
    }

    /// Lists and reads the files, and returns an engine over them. With it come the orders that have to be carried out on the
    /// files before it is used.
    ///
    /// # Errors
    ///
    /// Those of [`Engine::with_files`], but for those of changes of the files.
    fn read_files(files: F, options: Options) -> Result<(Engine<F>, Vec<Order>)> {
        let opened = Found::read(&files, &options)?.open(&options)?;
        let opened = opened.without_damaged_tail(&files, &options)?;
        let engine = Engine {
            files,
            options,
            recovered: opened.recovered,
            opening: Duration::ZERO,
            tables: SharedTables::new(opened.tables),
            turns: Turns::default(),
            numbers: Mutex::new(opened.numbers),
            unwritten: Unwritten::default(),
            undone: Mutex::default(),
            kept_blocks: KeptBlocks::default(),
            commits: Commits::default(),
            events: Events::default(),
            is_read_only: false,
            failure: OnceLock::new(),
        };
        Ok((engine, opened.orders))
    }

    /// Returns what couldn't be read when the files were opened: the tails that were cut off (in memory alone, if the engine only
    /// reads), and the other batches of the last append file whose entries are damaged, which were kept.
    ///
    /// ```
    /// # use raft_recover::{Engine, MemoryFiles, Options};
    /// let found = MemoryFiles::found(vec![(1, b"torn".to_vec())], vec![]);
    /// let engine = Engine::with_files(found, Options::new())?;
    /// for cut in engine.recovered().cuts() {
    ///     eprintln!("{cut}");
    /// }
    /// for batch in &engine.recovered().damaged {
    ///     eprintln!("{batch}");
    /// }
    /// # assert_eq!(engine.recovered().append.as_ref().unwrap().len, 4);
    /// # Ok::<(), raft_recover::Error>(())
    /// ```
    pub fn recovered(&self) -> &Recovered {
        &self.recovered
    }

    /// Returns the [`Files`] implementation that the engine was opened over.
    ///
    /// ```
    /// # use raft_recover::{Engine, MemoryFiles, Options};
    /// # let engine = Engine::with_files(MemoryFiles::new(), Options::new())?;
    /// let asked = engine.files().asked();
    /// engine.sync()?;
    /// assert!(engine.files().asked() > asked);
    /// # Ok::<(), raft_recover::Error>(())
    /// ```
    #[must_use]
    pub fn files(&self) -> &F {
        &self.files
    }

    /// Tests whether the engine was opened for reading only, so that it refuses each change.
    ///
    /// ```
    /// # use raft_recover::{Engine, MemoryFiles, Options};
    /// assert!(Engine::with_files_read_only(MemoryFiles::new(), Options::new())?.is_read_only());
    /// assert!(!Engine::with_files(MemoryFiles::new(), Options::new())?.is_read_only());
    /// # Ok::<(), raft_recover::Error>(())
    /// ```
    #[must_use]
    pub fn is_read_only(&self) -> bool {
        self.is_read_only
    }

    /// Checks that the engine isn't open for reading only. `call` is the name of the public call that asks, and stands in the
    /// error.
    ///
    /// # Errors
    ///
    /// `InvalidArgument`, with that name, where the engine is open for reading only.
    fn check_writable(&self, call: &str) -> Result<()> {
        if self.is_read_only {
            let text = format!("{call}: the engine is open for reading alone");
            return Err(Error::invalid_argument(&text));
        }
        Ok(())
    }

    /// Returns the options that the engine was opened with.
    ///
    /// ```
    /// # use raft_recover::{Engine, MemoryFiles, Options};
    /// let options = Options::new().target_file_size(1 << 20);
    /// let engine = Engine::with_files(MemoryFiles::new(), options.clone())?;
    /// assert_eq!(engine.options(), &options);
    /// # Ok::<(), raft_recover::Error>(())
    /// ```
    pub fn options(&self) -> &Options {
        &self.options
    }

    /// Locks the tables once no other thread has them locked. A thread that has them locked mustn't call this again: it would
    /// wait for itself.
    fn lock_tables(&self) -> MutexGuard<'_, EngineHandle> {
        self.tables.lock()
    }

    /// Locks the tables, but lets the threads that wait for them go first. It is for a thread that locks them again and again,
    /// for one region after another.
    fn lock_tables_after_waiters(&self) -> MutexGuard<'_, EngineHandle> {
        self.tables.lock_after_waiters()
    }

    /// Returns in numbers what the engine has, and what it did since it was opened. It is cheap: no record is looked at.
    ///
    /// ```
    /// # use raft_recover::{Engine, LogBatch, MemoryFiles, Options};
    /// # let engine = Engine::with_files(MemoryFiles::new(), Options::new())?;
    /// # let mut batch = LogBatch::new()?;
    /// batch.add_entries(7, 10, &["one", "two", "three"])?;
    /// batch.put(7, b"key", b"value")?;
    /// engine.write(&mut batch, true)?;
    /// let stats = engine.stats();
    /// assert_eq!((stats.batches, stats.append.files, stats.append.records), (1, 1, 4));
    /// # Ok::<(), raft_recover::Error>(())
    /// ```
    #[must_use]
    pub fn stats(&self) -> Stats {
        let live =
            [Queue::Append, Queue::Rewrite].map(|queue| self.lock_tables().count_live(queue));
        let numbers = locks::lock(&self.numbers);
        Stats {
            append: numbers.stats_of(Queue::Append, live[0]),
            rewrite: numbers.stats_of(Queue::Rewrite, live[1]),
            batches: numbers.batches,
            syncs: numbers.syncs,
            sync_time: numbers.sync_time,
            opening: self.opening,
            cut_bytes: self.recovered.cuts().map(|cut| cut.len).sum(),
        }
    }
}

impl<F: Files> fmt::Debug for Engine<F> {
    /// Shows what [`Engine::stats`] returns, and why the engine failed, if it did.
    fn fmt(&self, f: &mut fmt::Formatter<'_>) -> fmt::Result {
        f.debug_struct("Engine")
            .field("stats", &self.stats())
            .field("failure", &self.failure.get())
            .finish_non_exhaustive()
    }
}
