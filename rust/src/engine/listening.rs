//! Tells a listener what an engine did to its files.

use super::{CutTail, Engine, locks};
use crate::{FileId, Files, FolderFiles, Options, Queue, Result};
use std::collections::VecDeque;
use std::fmt;
use std::path::Path;
use std::sync::{Arc, Mutex};
use std::time::Duration;

/// Gets a call for each thing that an engine did to its files. A call that isn't implemented does nothing.
///
/// The calls come one at a time, once a thing is done, in the order in which things were done. They come on a thread that is just
/// making a change. That thread holds none of the engine's locks, so they may call the engine. A call that takes long holds back
/// its own thread and the calls that follow, but no other thread that writes or reads.
///
/// ```
/// use raft_recover::{Engine, FileId, Listener, LogBatch, MemoryFiles, Options};
/// use std::sync::{Arc, Mutex};
/// use std::time::Duration;
///
/// #[derive(Default)]
/// struct Told(Mutex<Vec<String>>);
///
/// impl Listener for Told {
///     fn on_begin(&self, file: FileId) {
///         self.0.lock().unwrap().push(format!("begun: {file}"));
///     }
///
///     fn on_sync(&self, file: FileId, took: Duration) {
///         assert!(took < Duration::from_secs(60));
///         self.0.lock().unwrap().push(format!("synced: {file}"));
///     }
/// }
///
/// let told = Arc::new(Told::default());
/// let engine = Engine::with_files_and_listener(MemoryFiles::new(), Options::new(), told.clone())?;
/// told.0.lock().unwrap().clear(); // what the opening did
/// let mut batch = LogBatch::new()?;
/// batch.put(7, b"key", b"value")?;
/// engine.write(&mut batch, false)?;
/// engine.rotate()?;
/// assert_eq!(*told.0.lock().unwrap(), ["synced: append file 1", "begun: append file 2"]);
/// # Ok::<(), raft_recover::Error>(())
/// ```
pub trait Listener: Send + Sync {
    /// Is called after a file was begun.
    ///
    /// ```
    /// # use raft_recover::{FileId, Listener, Queue};
    /// struct Quiet;
    /// impl Listener for Quiet {}
    /// Quiet.on_begin(FileId::new(Queue::Append, 1));
    /// ```
    fn on_begin(&self, _file: FileId) {}

    /// Is called after a queue was synced, up to the end of `file`, its last one. `took` is how long that took.
    ///
    /// ```
    /// # use raft_recover::{FileId, Listener, Queue};
    /// # use std::time::Duration;
    /// # struct Quiet;
    /// # impl Listener for Quiet {}
    /// Quiet.on_sync(FileId::new(Queue::Append, 1), Duration::from_millis(2));
    /// ```
    fn on_sync(&self, _file: FileId, _took: Duration) {}

    /// Is called after a file was deleted.
    ///
    /// ```
    /// # use raft_recover::{FileId, Listener, Queue};
    /// # struct Quiet;
    /// # impl Listener for Quiet {}
    /// Quiet.on_delete(FileId::new(Queue::Append, 1));
    /// ```
    fn on_delete(&self, _file: FileId) {}

    /// Is called after records moved from the files of a queue to the end of the rewrite queue. `records` is how many.
    ///
    /// ```
    /// # use raft_recover::{Listener, Queue};
    /// # struct Quiet;
    /// # impl Listener for Quiet {}
    /// Quiet.on_move(Queue::Append, 100);
    /// ```
    fn on_move(&self, _from: Queue, _records: usize) {}

    /// Is called after an opening has cut a torn tail off a queue's last file.
    ///
    /// ```
    /// # use raft_recover::{Engine, Listener, MemoryFiles, Options};
    /// # struct Quiet;
    /// # impl Listener for Quiet {}
    /// let torn = MemoryFiles::found(vec![(1, b"torn".to_vec())], vec![]);
    /// let engine = Engine::with_files(torn, Options::new())?;
    /// for cut in engine.recovered().cuts() {
    ///     Quiet.on_cut(cut);
    /// }
    /// # Ok::<(), raft_recover::Error>(())
    /// ```
    fn on_cut(&self, _cut: &CutTail) {}
}

/// One thing that was done, of which the listener is told by one call.
#[derive(Debug)]
pub(super) enum Event {
    Begun(FileId),
    Synced(FileId, Duration),
    Deleted(FileId),
    Moved(Queue, usize),
    Cut(CutTail),
}

/// The listener, if there is one, and the things that were done and that it isn't told of yet.
#[derive(Default)]
pub(super) struct Events {
    listener: Option<Arc<dyn Listener>>,
    line: Mutex<Line>,
}

/// The events that wait, and whether a thread is telling the listener of some.
#[derive(Default)]
struct Line {
    /// The events that the listener isn't told of yet, oldest first.
    waiting: VecDeque<Event>,
    /// Whether a thread is making a call of the listener.
    is_telling: bool,
}

/// The right of a thread to call the listener, until this is dropped, also where the listener panics.
struct ListenerGuard<'a>(&'a Mutex<Line>);

impl Drop for ListenerGuard<'_> {
    /// Gives the right back, so that a thread may tell the listener of the next event.
    fn drop(&mut self) {
        locks::lock(self.0).is_telling = false;
    }
}

impl Events {
    /// Makes an empty queue of events for `listener`; with `None`, events are dropped.
    pub(super) fn new(listener: Option<Arc<dyn Listener>>) -> Events {
        Events {
            listener,
            line: Mutex::default(),
        }
    }

    /// Adds an event that the listener is to be told of later. Without a listener it is dropped.
    pub(super) fn note(&self, event: Event) {
        if self.listener.is_some() {
            locks::lock(&self.line).waiting.push_back(event);
        }
    }

    /// Tells the listener of all events that wait, oldest first. Where another thread is just doing so it returns at once:
    /// that thread tells of these too.
    fn tell_waiting(&self) {
        let Some(listener) = self.listener.as_deref() else {
            return;
        };
        while let Some((event, _guard)) = self.take_next_event() {
            match event {
                Event::Begun(file) => listener.on_begin(file),
                Event::Synced(file, took) => listener.on_sync(file, took),
                Event::Deleted(file) => listener.on_delete(file),
                Event::Moved(from, records) => listener.on_move(from, records),
                Event::Cut(cut) => listener.on_cut(&cut),
            }
        }
    }

    /// Takes the oldest event that waits, with the right to tell the listener of it; `None` where none waits, or another thread
    /// has that right.
    fn take_next_event(&self) -> Option<(Event, ListenerGuard<'_>)> {
        let mut line = locks::lock(&self.line);
        if line.is_telling {
            return None;
        }
        let event = line.waiting.pop_front()?;
        line.is_telling = true;
        Some((event, ListenerGuard(&self.line)))
    }
}

impl fmt::Debug for Events {
    /// Shows the name of the type alone: a listener can't be shown.
    fn fmt(&self, f: &mut fmt::Formatter<'_>) -> fmt::Result {
        f.debug_struct("Events").finish_non_exhaustive()
    }
}

impl Engine {
    /// Opens the engine in a folder, as [`Engine::open`] does, and tells a listener what is done to its files: by the opening,
    /// and from then on.
    ///
    /// ```
    /// use raft_recover::{CutTail, Engine, Listener, Options};
    /// use std::sync::Arc;
    ///
    /// struct Cuts;
    ///
    /// impl Listener for Cuts {
    ///     fn on_cut(&self, cut: &CutTail) {
    ///         eprintln!("{cut}");
    ///     }
    /// }
    ///
    /// # let folder = std::env::temp_dir().join(format!("raft-recover-listening-{}", std::process::id()));
    /// let engine = Engine::open_with_listener(&folder, Options::new(), Arc::new(Cuts))?;
    /// # std::fs::remove_dir_all(folder).unwrap();
    /// # Ok::<(), raft_recover::Error>(())
    /// ```
    ///
    /// # Errors
    ///
    /// Those of [`Engine::open`].
    pub fn open_with_listener(
        path: impl AsRef<Path>,
        options: Options,
        listener: Arc<dyn Listener>,
    ) -> Result<Engine> {
        Engine::with_files_and_listener(FolderFiles::open(path)?, options, listener)
    }
}

impl<F: Files> Engine<F> {
    /// Opens an engine over files, as [`Engine::with_files`] does, and tells a listener what is done to them: by the opening, and
    /// from then on.
    ///
    /// ```
    /// use raft_recover::{Engine, FileId, Listener, MemoryFiles, Options};
    /// use std::sync::Arc;
    /// use std::sync::atomic::{AtomicUsize, Ordering::Relaxed};
    /// use std::time::Duration;
    ///
    /// #[derive(Default)]
    /// struct Syncs(AtomicUsize);
    ///
    /// impl Listener for Syncs {
    ///     fn on_sync(&self, _file: FileId, _took: Duration) {
    ///         self.0.fetch_add(1, Relaxed);
    ///     }
    /// }
    ///
    /// let syncs = Arc::new(Syncs::default());
    /// let files = MemoryFiles::new();
    /// let engine = Engine::with_files_and_listener(files, Options::new(), syncs.clone())?;
    /// engine.sync()?;
    /// assert_eq!(syncs.0.load(Relaxed) as u64, engine.stats().syncs);
    /// # Ok::<(), raft_recover::Error>(())
    /// ```
    ///
    /// # Errors
    ///
    /// Those of [`Engine::with_files`].
    pub fn with_files_and_listener(
        files: F,
        options: Options,
        listener: Arc<dyn Listener>,
    ) -> Result<Engine<F>> {
        Engine::open_files(files, options, Some(listener))
    }

    /// Makes `call`, which may change something, then tells the listener what was done, also where `call` was refused, and
    /// returns what `call` returned.
    ///
    /// # Errors
    ///
    /// Those of `call`.
    pub(super) fn tell_after<T>(&self, call: impl FnOnce() -> Result<T>) -> Result<T> {
        let result = call();
        self.events.tell_waiting();
        result
    }
}
