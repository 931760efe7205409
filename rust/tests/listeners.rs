//! Tests what a listener is told of an engine.

mod common;

use common::TempFolder;
use common::engines::write_batch;
use raft_recover::{
    Ask, CutTail, Engine, FileId, Files, Listener, LogBatch, MemoryFiles, Options, Queue,
};
use std::io::Write;
use std::panic::{AssertUnwindSafe, catch_unwind};
use std::sync::atomic::{AtomicBool, AtomicUsize, Ordering::SeqCst};
use std::sync::{Arc, Mutex, OnceLock, Weak};
use std::time::Duration;
use std::{fs, thread};

/// A listener that notes its calls.
#[derive(Default)]
struct NotingListener {
    told: Mutex<Vec<String>>,
    sync_time: Mutex<Duration>,
}

impl NotingListener {
    /// Adds the words for a call to those that were noted.
    fn note_call(&self, text: String) {
        self.told.lock().unwrap().push(text);
    }

    /// Returns the words for the calls that were noted since the last call of this, in order.
    fn take_noted(&self) -> Vec<String> {
        std::mem::take(&mut self.told.lock().unwrap())
    }
}

impl Listener for NotingListener {
    /// Notes which file was begun.
    fn on_begin(&self, file: FileId) {
        self.note_call(format!("begin {file}"));
    }

    /// Notes which queue was synced, and adds the time that it took.
    fn on_sync(&self, file: FileId, took: Duration) {
        *self.sync_time.lock().unwrap() += took;
        self.note_call(format!("sync {}", file.queue));
    }

    /// Notes which file was deleted.
    fn on_delete(&self, file: FileId) {
        self.note_call(format!("delete {file}"));
    }

    /// Notes how many records moved, and out of which queue.
    fn on_move(&self, from: Queue, records: usize) {
        self.note_call(format!("move {records} {from}"));
    }

    /// Notes which file was cut, and to which length.
    fn on_cut(&self, cut: &CutTail) {
        self.note_call(format!("cut {} to {}", cut.file, cut.offset));
    }
}

/// Returns all asks of files but writes, each in the words that a [`NotingListener`] listener has for it.
fn asks_without_writes(files: &MemoryFiles) -> Vec<String> {
    let asks = files.asks().into_iter();
    let shown = asks.filter_map(|ask| match ask {
        Ask::Write(..) => None,
        Ask::Sync(queue) => Some(format!("sync {queue}")),
        Ask::Begin(file) => Some(format!("begin {file}")),
        Ask::Delete(file) => Some(format!("delete {file}")),
        Ask::Cut(file, len) => Some(format!("cut {file} to {len}")),
        _ => unreachable!(),
    });
    shown.collect()
}

/// Returns options with files so small that records soon move, and files are deleted.
fn small_file_options() -> Options {
    Options::new().target_file_size(400).purge_above(1500)
}

#[test]
fn a_listener_is_told_all_that_is_done_to_files_in_order() {
    let told = Arc::new(NotingListener::default());
    let found = MemoryFiles::found(vec![(4, b"torn".to_vec())], vec![]);
    let engine =
        Engine::with_files_and_listener(found, small_file_options(), told.clone()).unwrap();
    write_batch(&engine, |batch| batch.put(8, b"key", b"it stays"));
    for index in 1..=60 {
        write_batch(&engine, |batch| {
            batch.add_entries(7, index, &["x".repeat(50)])
        });
        if index % 10 == 0 {
            engine.sync().unwrap();
            write_batch(&engine, |batch| batch.compact(7, index - 8));
            engine.purge().unwrap();
        }
    }
    engine.rewrite_again().unwrap();
    engine.purge().unwrap();
    let told_all = told.take_noted();
    let (moves, told_files): (Vec<_>, Vec<_>) = told_all
        .into_iter()
        .partition(|text| text.starts_with("move "));
    assert_eq!(told_files, asks_without_writes(engine.files()));
    for word in [
        "begin append",
        "begin rewrite",
        "sync",
        "delete append",
        "delete rewrite",
        "cut",
    ] {
        assert!(
            told_files.iter().any(|text| text.starts_with(word)),
            "{word}"
        );
    }
    assert!(moves.iter().any(|text| text.ends_with("append")));
    assert_eq!(
        moves.last().unwrap(),
        &format!("move {} rewrite", engine.stats().rewrite.records)
    );
    assert_eq!(*told.sync_time.lock().unwrap(), engine.stats().sync_time);
}

#[test]
fn a_listener_is_told_how_many_records_move() {
    let told = Arc::new(NotingListener::default());
    let files = MemoryFiles::new();
    let engine = Engine::with_files_and_listener(files, Options::new(), told.clone()).unwrap();
    let moves = || -> Vec<_> {
        let told = told.take_noted().into_iter();
        told.filter(|text| text.starts_with("move ")).collect()
    };
    write_batch(&engine, |batch| batch.add_entries(7, 1, &["1", "2", "3"]));
    write_batch(&engine, |batch| batch.put(8, b"key", b"value"));
    engine.rotate().unwrap();
    write_batch(&engine, |batch| batch.add_entries(7, 4, &["4"]));
    engine.rewrite(1).unwrap();
    engine.rewrite(1).unwrap(); // nothing is left to move
    assert_eq!(moves(), ["move 4 append"]);
    write_batch(&engine, |batch| batch.compact(7, 3));
    engine.rewrite_again().unwrap();
    assert_eq!(moves(), ["move 2 rewrite"]);
}

#[test]
fn a_listener_is_told_what_an_opening_cuts_with_the_reason() {
    #[derive(Default)]
    struct CutListener(Mutex<Vec<CutTail>>);
    impl Listener for CutListener {
        /// Keeps a copy of the cut.
        fn on_cut(&self, cut: &CutTail) {
            self.0.lock().unwrap().push(cut.clone());
        }
    }
    let room = TempFolder::new();
    let engine = Engine::open(room.path(), Options::new()).unwrap();
    write_batch(&engine, |batch| batch.put(7, b"key", b"value"));
    engine.sync().unwrap();
    let path = engine.files().path_of(FileId::new(Queue::Append, 1));
    drop(engine);
    let mut file = fs::OpenOptions::new().append(true).open(path).unwrap();
    file.write_all(b"torn").unwrap();
    let cuts = Arc::new(CutListener::default());
    let engine = Engine::open_with_listener(room.path(), Options::new(), cuts.clone()).unwrap();
    let told = cuts.0.lock().unwrap().clone();
    assert!(told.iter().eq(engine.recovered().cuts()));
    assert_eq!((told.len(), engine.stats().cut_bytes), (1, 4));
    assert!(engine.stats().opening > Duration::ZERO);
}

/// A listener that makes calls of the engine which tells it something, and has another thread make some.
#[derive(Default)]
struct CallingListener {
    engine: OnceLock<Weak<Engine<MemoryFiles>>>,
    told: AtomicUsize,
    is_within: AtomicBool,
}

impl CallingListener {
    /// Tests that no other call of the listener runs. Then writes, reads and purges in the engine, in this thread and in
    /// another one.
    fn call_engine(&self) {
        assert!(!self.is_within.swap(true, SeqCst), "two calls at once");
        let count = self.told.fetch_add(1, SeqCst) as u64;
        if let Some(engine) = self.engine.get().and_then(Weak::upgrade) {
            let change = |region| {
                let mut batch = LogBatch::new().unwrap();
                batch.put(region, b"key", &count.to_le_bytes()).unwrap();
                engine.write(&mut batch, count < 50).unwrap(); // a sync is told, too
                assert_eq!(
                    engine.get(region, b"key").unwrap().unwrap(),
                    count.to_le_bytes()
                );
                engine.purge().unwrap();
            };
            change(100);
            thread::scope(|scope| scope.spawn(|| change(101)).join().unwrap());
        }
        self.is_within.store(false, SeqCst);
    }
}

impl Listener for CallingListener {
    /// Calls the engine where a file was begun.
    fn on_begin(&self, _: FileId) {
        self.call_engine();
    }

    /// Calls the engine where a queue was synced.
    fn on_sync(&self, _: FileId, _: Duration) {
        self.call_engine();
    }

    /// Calls the engine where a file was deleted.
    fn on_delete(&self, _: FileId) {
        self.call_engine();
    }

    /// Calls the engine where records moved.
    fn on_move(&self, _: Queue, _: usize) {
        self.call_engine();
    }
}

#[test]
fn a_listener_can_call_the_engine_while_other_threads_do() {
    let calling = Arc::new(CallingListener::default());
    let engine =
        Engine::with_files_and_listener(MemoryFiles::new(), small_file_options(), calling.clone());
    let engine = Arc::new(engine.unwrap());
    let at_opening = calling.told.load(SeqCst);
    calling.engine.set(Arc::downgrade(&engine)).unwrap();
    thread::scope(|scope| {
        for region in 0..4 {
            let engine = &engine;
            scope.spawn(move || {
                for index in 1..=20 {
                    let mut batch = LogBatch::new().unwrap();
                    batch.add_entries(region, index, &["x".repeat(40)]).unwrap();
                    engine.write(&mut batch, index % 4 == 0).unwrap();
                }
                engine.purge().unwrap();
            });
        }
    });
    engine.sync().unwrap();
    assert!(calling.told.load(SeqCst) > at_opening + 50);
    for region in 0..4 {
        assert_eq!(engine.entries(region, ..).unwrap().len(), 20);
    }
}

#[test]
fn a_panic_of_a_listener_reaches_only_the_caller_of_the_engine() {
    #[derive(Default)]
    struct PanickingListener(AtomicUsize);
    impl Listener for PanickingListener {
        /// Counts the syncs, and panics at the fourth one.
        fn on_sync(&self, _: FileId, _: Duration) {
            if self.0.fetch_add(1, SeqCst) == 3 {
                panic!("the fourth sync is told");
            }
        }
    }
    let listener = Arc::new(PanickingListener::default());
    let files = MemoryFiles::new();
    let engine = Engine::with_files_and_listener(files, Options::new(), listener.clone()).unwrap();
    let mut panics = 0;
    for index in 1..=6 {
        let mut batch = LogBatch::new().unwrap();
        batch.add_entries(7, index, &["an entry"]).unwrap();
        let written = catch_unwind(AssertUnwindSafe(|| engine.write(&mut batch, true)));
        match written {
            Ok(written) => written.unwrap(),
            Err(_) => panics += 1,
        }
        assert_eq!(engine.last_index(7).unwrap(), Some(index));
    }
    assert_eq!(panics, 1);
    assert_eq!(listener.0.load(SeqCst) as u64, engine.stats().syncs);
}

#[test]
fn a_refused_change_tells_nothing_and_what_came_before_a_failure_is_told() {
    let told = Arc::new(NotingListener::default());
    let files = MemoryFiles::new();
    let engine = Engine::with_files_and_listener(files, Options::new(), told.clone()).unwrap();
    told.take_noted();
    let mut batch = LogBatch::new().unwrap();
    batch.add_entries(7, 1, &["an entry"]).unwrap();
    batch.add_entries(7, 9, &["behind a hole"]).unwrap();
    engine.write(&mut batch, false).unwrap_err();
    assert_eq!(told.take_noted(), [""; 0]);
    // somebody else deletes the last file: the next change of it fails
    engine.rotate().unwrap();
    assert_eq!(told.take_noted(), ["sync append", "begin append file 2"]);
    let last = FileId::new(Queue::Append, 3);
    engine.files().rotate(last).unwrap();
    engine.rotate().unwrap_err();
    assert_eq!(told.take_noted(), ["sync append"]);
}
