//! Tests what an engine says of a torn tail that its opening cut off, and where the tail is kept.

use crate::common::TempFolder;
use crate::common::engines::{new_engine, write_batch};
use raft_recover::{
    CutTail, Engine, ErrorKind, FileId, Files, FolderFiles, MemoryFiles, Options, Queue,
};
use std::collections::BTreeMap;
use std::fs;
use std::path::Path;

/// The first append file.
const FIRST: FileId = FileId::new(Queue::Append, 1);

/// Returns the bytes of an append file of two batches, and how many of them are those of the first batch.
fn two_batches() -> (Vec<u8>, usize) {
    let engine = new_engine();
    write_batch(&engine, |batch| batch.put(7, b"key", b"value"));
    let whole = engine.stats().append.bytes as usize;
    write_batch(&engine, |batch| {
        batch.add_entries(7, 1, &["an entry", "another"])
    });
    (engine.files().files(Queue::Append).remove(0).1, whole)
}

/// Tests that a cut is that of a tail of `len` bytes behind `whole` bytes of whole batches, and that its reason and its words name
/// the same place.
fn assert_cut(cut: &CutTail, file: FileId, whole: usize, len: usize) {
    let place = (file, whole as u64, len as u64);
    assert_eq!((cut.file, cut.offset, cut.len), place);
    let reason = cut.reason.as_ref().unwrap();
    let place = (Some(file), Some(whole as u64));
    assert_eq!((reason.file, reason.offset), place, "{reason}");
    assert_ne!(reason.kind, ErrorKind::Memory);
    let text = format!("{file}, offset {whole}: {len} bytes were cut off: {reason}");
    assert_eq!(cut.to_string(), text);
}

#[test]
fn an_opening_says_what_it_cut_with_the_place_and_the_reason() {
    let (bytes, whole) = two_batches();
    for len in whole..bytes.len() {
        let held = || vec![(1, bytes[..len].to_vec())];
        let empty = || vec![(1, vec![])];
        for queue in [Queue::Append, Queue::Rewrite] {
            let found = match queue {
                Queue::Append => MemoryFiles::found(held(), empty()),
                Queue::Rewrite => MemoryFiles::found(empty(), held()),
            };
            let engine = Engine::with_files(found, Options::new()).unwrap();
            let recovered = engine.recovered();
            let (cut, other) = match queue {
                Queue::Append => (&recovered.append, &recovered.rewrite),
                Queue::Rewrite => (&recovered.rewrite, &recovered.append),
            };
            assert_eq!((cut.is_some(), other), (len > whole, &None));
            assert!(recovered.cuts().eq(cut));
            if let Some(cut) = cut {
                assert_cut(cut, FileId::new(queue, 1), whole, len - whole);
            }
        }
    }
}

#[test]
fn a_changed_byte_in_the_last_batch_is_the_reason_of_a_cut() {
    let (mut bytes, whole) = two_batches();
    *bytes.last_mut().unwrap() ^= 1;
    let found = MemoryFiles::found(vec![(1, bytes.clone())], vec![]);
    let engine = Engine::with_files(found, Options::new()).unwrap();
    let cut = engine.recovered().append.as_ref().unwrap();
    assert_cut(cut, FIRST, whole, bytes.len() - whole);
    assert_eq!(cut.reason.as_ref().unwrap().kind, ErrorKind::Corruption);
}

/// Reads all files in a folder but `LOCK`, and returns the bytes of each by its name.
fn read_files(folder: &Path) -> BTreeMap<String, Vec<u8>> {
    let entries = fs::read_dir(folder).unwrap().map(Result::unwrap);
    let files = entries.filter(|entry| entry.file_name() != "LOCK");
    files
        .map(|entry| {
            let name = entry.file_name().into_string().unwrap();
            (name, fs::read(entry.path()).unwrap())
        })
        .collect()
}

/// Appends a tail to the first append file in a folder, opens the folder, and returns how many bytes the opening cut off; `None`
/// where it cut none.
fn append_tail_and_open(folder: &Path, tail: &[u8]) -> Option<u64> {
    let path = folder.join("0000000000000001.raftlog");
    let mut bytes = fs::read(&path).unwrap();
    bytes.extend(tail);
    fs::write(&path, bytes).unwrap();
    let engine = Engine::open(folder, Options::new()).unwrap();
    engine.recovered().append.as_ref().map(|cut| cut.len)
}

#[test]
fn a_tail_that_is_cut_off_is_kept_beside_its_file() {
    let room = TempFolder::new();
    let engine = Engine::open(room.path(), Options::new()).unwrap();
    write_batch(&engine, |batch| batch.put(7, b"key", b"value"));
    let whole = engine.stats().append.bytes;
    drop(engine);
    let path = room.path().join("0000000000000001.raftlog");
    let bytes = fs::read(&path).unwrap();
    let cut = |nth: &str| format!("0000000000000001.raftlog.{whole}{nth}.cut");
    // the tails of openings one behind the other, and what is kept since: what was kept already, and what was
    // half kept, isn't kept again
    type Kept<'a> = &'a [(&'a str, &'a [u8])];
    let rows: [(&[u8], Kept<'_>); 6] = [
        (b"", &[]),
        (b"torn", &[("", b"torn")]),
        (b"torn", &[("", b"torn")]),
        (b"torn, and more", &[("", b"torn, and more")]),
        (b"another", &[("", b"torn, and more"), (".2", b"another")]),
        (
            b"a third",
            &[
                ("", b"torn, and more"),
                (".2", b"another"),
                (".3", b"a third"),
            ],
        ),
    ];
    for (tail, expected) in rows {
        let count = append_tail_and_open(room.path(), tail);
        assert_eq!(count, (!tail.is_empty()).then_some(tail.len() as u64));
        assert_eq!(fs::read(&path).unwrap(), bytes);
        let mut kept = read_files(room.path());
        kept.retain(|name, _| name.ends_with(".cut"));
        let expected = expected
            .iter()
            .map(|(nth, bytes)| (cut(nth), bytes.to_vec()));
        assert_eq!(kept, expected.collect());
    }
    let files = FolderFiles::open(room.path()).unwrap();
    assert_eq!(files.list(Queue::Append).unwrap(), [(1, whole)]);
}

#[test]
fn a_tail_that_cant_be_kept_isnt_cut_off() {
    let room = TempFolder::new();
    let files = FolderFiles::open(room.path()).unwrap();
    files.rotate(FIRST).unwrap();
    files.write(FIRST, b"torn").unwrap();
    drop(files);
    // a folder stands where it is to be kept
    let kept = room.path().join("0000000000000001.raftlog.0.cut");
    fs::create_dir(&kept).unwrap();
    let e = Engine::open(room.path(), Options::new()).unwrap_err();
    let place = (Some(FIRST), Some(0));
    assert_eq!((e.kind, (e.file, e.offset)), (ErrorKind::Io, place), "{e}");
    let bytes = fs::read(room.path().join("0000000000000001.raftlog"));
    assert_eq!(bytes.unwrap(), b"torn");
    fs::remove_dir(&kept).unwrap();
    Engine::open(room.path(), Options::new()).unwrap();
    assert_eq!(fs::read(&kept).unwrap(), b"torn");
}
