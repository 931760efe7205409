//! Tests which files of a folder are synced when, and what holds after a sync that failed. The C functions behind
//! `File::sync_all` and `File::sync_data` are replaced by ones of this program.

mod common;

use common::TempFolder;
use raft_recover::{Engine, ErrorKind, FileId, Files, FolderFiles, LogBatch, Options, Queue};
use std::cell::{Cell, RefCell};
use std::ffi::c_int;
use std::path::Path;
use std::{fs, io, mem};

/// The first append file.
const FIRST: FileId = FileId::new(Queue::Append, 1);
/// The second append file.
const SECOND: FileId = FileId::new(Queue::Append, 2);
/// The first rewrite file.
const REWRITTEN: FileId = FileId::new(Queue::Rewrite, 1);

thread_local! {
    /// The names of the files and folders that this thread has synced.
    static SYNCED: RefCell<Vec<String>> = const { RefCell::new(Vec::new()) };
    /// How many syncs of this thread succeed before one fails.
    static GOOD: Cell<usize> = const { Cell::new(usize::MAX) };
}

/// Notes the sync of a file, in place of the call of the system.
#[unsafe(no_mangle)]
extern "C" fn fsync(file: c_int) -> c_int {
    note_sync(file)
}

/// Notes the sync of a file, in place of the call of the system.
#[unsafe(no_mangle)]
extern "C" fn fdatasync(file: c_int) -> c_int {
    note_sync(file)
}

/// Notes the name of the file or folder that is synced, and returns 0; or -1, for an error, where it is this sync's turn to fail.
/// The next one succeeds again, as on systems that report dropped bytes only once.
fn note_sync(file: c_int) -> c_int {
    let path = fs::read_link(format!("/proc/self/fd/{file}")).unwrap();
    let name = path.file_name().unwrap().to_string_lossy();
    SYNCED.with_borrow_mut(|synced| synced.push(name.into_owned()));
    let good = GOOD.get();
    GOOD.set(good.checked_sub(1).unwrap_or(usize::MAX));
    if good == 0 { -1 } else { 0 }
}

/// Returns the names of the files and folders that this thread synced since the last call of this, in order.
fn take_synced_names() -> Vec<String> {
    SYNCED.with_borrow_mut(mem::take)
}

/// Returns the last name in a path, that of the file or folder itself.
fn last_name(path: &Path) -> String {
    path.file_name().unwrap().to_str().unwrap().to_owned()
}

#[test]
fn a_file_without_new_bytes_isnt_synced_again() {
    let room = TempFolder::new();
    let path = room.path().join("folder");
    let files = FolderFiles::open(&path).unwrap();
    assert_eq!(
        take_synced_names(),
        ["folder".to_owned(), last_name(room.path())]
    );
    let [first, second] = [FIRST, SECOND].map(|file| last_name(&files.path_of(file)));
    let kept = format!("{second}.7.cut");
    type Step<'a> = (&'a str, &'a dyn Fn() -> io::Result<()>, &'a [&'a str]);
    let steps: [Step<'_>; 18] = [
        ("begin", &|| files.rotate(FIRST), &["folder"]),
        ("new", &|| files.sync(Queue::Append), &[]),
        ("write", &|| files.write(FIRST, b"bytes"), &[]),
        ("other queue", &|| files.sync(Queue::Rewrite), &[]),
        ("bytes", &|| files.sync(Queue::Append), &[&first]),
        ("again", &|| files.sync(Queue::Append), &[]),
        ("synced", &|| files.rotate(REWRITTEN), &["folder"]),
        ("write", &|| files.write(FIRST, b"more"), &[]),
        ("close", &|| files.rotate(SECOND), &[&first, "folder"]),
        ("closed", &|| files.sync(Queue::Append), &[]),
        ("write", &|| files.write(SECOND, b"bytes"), &[]),
        ("no cut", &|| files.truncate(SECOND, 5), &[]),
        ("bytes", &|| files.sync(Queue::Append), &[&second]),
        ("write", &|| files.write(SECOND, b"more"), &[]),
        (
            "cut",
            &|| files.truncate(SECOND, 7),
            &[&kept, "folder", &second],
        ),
        ("was cut", &|| files.sync(Queue::Append), &[]),
        ("delete", &|| files.delete(FIRST), &["folder"]),
        ("deleted", &|| files.sync(Queue::Append), &[]),
    ];
    for (at, (what, step, expected)) in steps.iter().enumerate() {
        step().unwrap();
        assert_eq!(take_synced_names(), *expected, "{at}: {what}");
    }
    files.write(SECOND, b"not synced").unwrap();
    drop(files);
    FolderFiles::open(&path).unwrap();
    let mut again = take_synced_names();
    assert_eq!(
        again.split_off(2),
        ["folder".to_owned(), last_name(room.path())]
    );
    again.sort();
    assert_eq!(again, ["0000000000000001.rewrite".to_owned(), second]);
}

#[test]
fn a_deleted_file_isnt_synced() {
    let room = TempFolder::new();
    let files = FolderFiles::open(room.path()).unwrap();
    files.rotate(FIRST).unwrap();
    files.write(FIRST, b"bytes").unwrap();
    take_synced_names();
    files.delete(FIRST).unwrap();
    files.sync(Queue::Append).unwrap();
    files.rotate(SECOND).unwrap();
    let folder = last_name(room.path());
    assert_eq!(take_synced_names(), [folder.clone(), folder]);
}

#[test]
fn an_engine_syncs_a_file_only_where_a_sync_is_asked_for() {
    let room = TempFolder::new();
    let engine = Engine::open(room.path(), Options::new()).unwrap();
    take_synced_names();
    let mut batch = LogBatch::new().unwrap();
    for (sync, expected) in [(false, 0), (true, 1), (true, 1), (false, 0)] {
        batch.put(7, b"key", b"value").unwrap();
        engine.write(&mut batch, sync).unwrap();
        assert_eq!(take_synced_names().len(), expected);
    }
    engine.sync().unwrap();
    assert_eq!(
        take_synced_names(),
        [last_name(&engine.files().path_of(FIRST))]
    );
    engine.sync().unwrap();
    assert_eq!(take_synced_names(), [""; 0]);
}

#[test]
fn after_a_sync_that_failed_nothing_more_is_changed() {
    type Change = fn(&FolderFiles) -> io::Result<()>;
    let changes: [(Change, usize); 5] = [
        (|files| files.sync(Queue::Append), 1),
        (|files| files.rotate(SECOND), 2),
        (|files| files.truncate(FIRST, 1), 3),
        (|files| files.rotate(REWRITTEN), 1),
        (|files| files.delete(FIRST), 1),
    ];
    for (at, (change, syncs)) in changes.into_iter().enumerate() {
        for good in 0..syncs {
            let room = TempFolder::new();
            let files = FolderFiles::open(room.path()).unwrap();
            files.rotate(FIRST).unwrap();
            files.write(FIRST, b"bytes").unwrap();
            GOOD.set(good);
            change(&files).unwrap_err();
            take_synced_names();
            for (change, _) in changes {
                let e = change(&files).unwrap_err();
                assert_eq!(e.to_string(), "an earlier change failed", "{at} {good}");
            }
            assert!(files.write(FIRST, b"more").is_err());
            assert_eq!(take_synced_names(), [""; 0], "{at} {good}");
        }
    }
}

#[test]
fn a_folder_whose_syncs_fail_isnt_opened() {
    let room = TempFolder::new();
    let path = room.path().join("folder");
    let files = FolderFiles::open(&path).unwrap();
    files.rotate(FIRST).unwrap();
    drop(files);
    for good in 0..3 {
        GOOD.set(good);
        let e = FolderFiles::open(&path).unwrap_err();
        assert_eq!(e.kind, ErrorKind::Io, "{good}");
    }
    FolderFiles::open(&path).unwrap();
}
