//! Tests an engine on a full disk. Tests that need a real one mount a small file system in memory, and test nothing where that
//! isn't allowed.

mod common;

use common::TempFolder;
use common::engines::{asks_as_words, write_batch};
use common::hooked::{Call, HookedFiles};
use raft_recover::{
    Engine, Error, ErrorKind, FileId, Files, FolderFiles, LogBatch, MemoryFiles, Options, Queue,
    Result,
};
use std::collections::BTreeMap;
use std::path::{Path, PathBuf};
use std::process::Command;
use std::sync::{Mutex, MutexGuard, PoisonError};
use std::{fs, io};

/// The first append file.
const FIRST: FileId = FileId::new(Queue::Append, 1);

/// The length of an entry, in bytes.
const ENTRY: usize = 10_000;

/// A lock that is held as long as there is a small disk, so that there is one at a time. A process that another test starts
/// shares this one's open files until its own program begins; and a deleted file that is open anywhere still takes room.
static ONE_DISK: Mutex<()> = Mutex::new(());

/// A file system of 256 KiB in pages of 4 KiB, which is unmounted when this is dropped.
struct SmallDisk(TempFolder, #[expect(dead_code)] MutexGuard<'static, ()>);

impl SmallDisk {
    /// Waits until no other test has such a disk, and mounts one; returns `None`, and says so, where this user isn't allowed to.
    fn mount() -> Option<SmallDisk> {
        let alone = ONE_DISK.lock().unwrap_or_else(PoisonError::into_inner);
        let disk = SmallDisk(TempFolder::new(), alone);
        let mut mount = Command::new("mount");
        mount.args(["-t", "tmpfs", "-o", "size=256k", "none"]);
        let is_mounted = mount.arg(disk.0.path()).output();
        if is_mounted.is_ok_and(|ended| ended.status.success()) {
            return Some(disk);
        }
        println!("no file system can be mounted: nothing was tested");
        None
    }

    /// Returns the path of the folder `logs` on the disk, in which engines are opened.
    fn log_folder(&self) -> PathBuf {
        self.0.path().join("logs")
    }

    /// Takes 64 KiB of the room on the disk, by a file of that length.
    fn take_room(&self) {
        fs::write(self.0.path().join("other"), vec![7; 64 << 10]).unwrap();
    }

    /// Gives that room back: deletes the file.
    fn make_room(&self) {
        fs::remove_file(self.0.path().join("other")).unwrap();
    }
}

impl Drop for SmallDisk {
    /// Unmounts the file system, as far as that can be done.
    fn drop(&mut self) {
        let _ = Command::new("umount").arg("-l").arg(self.0.path()).status();
    }
}

/// Writes entries of region 7 one by one until a write fails. Returns the index of the last one that was written, and the error.
fn write_until_full<F: Files>(engine: &Engine<F>) -> (u64, Error) {
    let first = engine.last_index(7).unwrap().map_or(1, |last| last + 1);
    let mut batch = LogBatch::new().unwrap();
    for index in first.. {
        batch
            .add_entries(7, index, &[[index as u8; ENTRY]])
            .unwrap();
        if let Err(e) = engine.write(&mut batch, index % 2 == 0) {
            return (index - 1, e);
        }
    }
    unreachable!()
}

/// Tests that an engine has at least the first `written` of these entries, and that all of them have their bytes.
fn assert_entries_readable<F: Files>(engine: &Engine<F>, written: u64) {
    let entries: Vec<_> = engine.entries(7, ..).unwrap().collect();
    assert!(entries.len() as u64 >= written);
    for (index, entry) in (1..).zip(entries) {
        assert_eq!(entry, [index as u8; ENTRY]);
    }
}

/// Tests that an error says that the disk has no room.
fn assert_no_room(e: &Error) {
    assert_eq!(e.kind, ErrorKind::Io, "{e}");
    let source = std::error::Error::source(e).unwrap();
    let source: &io::Error = source.downcast_ref().unwrap();
    assert_eq!(source.kind(), io::ErrorKind::StorageFull, "{e}");
    assert_eq!(e.io_kind(), Some(io::ErrorKind::StorageFull));
}

/// Reads all files in a folder, and returns the bytes of each by its name.
fn read_files(folder: &Path) -> BTreeMap<String, Vec<u8>> {
    let entries = fs::read_dir(folder).unwrap().map(io::Result::unwrap);
    let seen = entries.map(|entry| {
        let name = entry.file_name().into_string().unwrap();
        (name, fs::read(entry.path()).unwrap())
    });
    seen.collect()
}

/// Opens a folder on a full disk, in which nothing has to be cut, and returns the engine. Tests that the opening changes no file,
/// as it has no room for one.
fn open_unchanged(folder: &Path) -> Engine {
    let before = read_files(folder);
    let engine = Engine::open(folder, Options::new()).unwrap();
    assert_eq!(read_files(folder), before);
    engine
}

#[test]
fn an_engine_on_a_full_disk_can_be_read_and_goes_on_once_there_is_room() {
    let Some(disk) = SmallDisk::mount() else {
        return;
    };
    disk.take_room();
    let engine = Engine::open(disk.log_folder(), Options::new()).unwrap();
    let (written, e) = write_until_full(&engine);
    assert_no_room(&e);
    assert!((10..20).contains(&written), "{written}");
    assert_entries_readable(&engine, written);
    assert_no_room(&engine.sync().unwrap_err());
    assert_entries_readable(&engine, written);
    drop(engine);
    // what was written of the last batch was taken back, so there is nothing to cut
    let engine = Engine::open_read_only(disk.log_folder(), Options::new()).unwrap();
    assert_eq!(engine.recovered().cuts().count(), 0);
    assert_eq!(engine.last_index(7).unwrap(), Some(written));
    assert_entries_readable(&engine, written);
    drop(engine);
    let engine = open_unchanged(&disk.log_folder());
    assert_eq!(engine.recovered().cuts().count(), 0);
    assert_entries_readable(&engine, written);
    drop(engine);
    disk.make_room();
    let engine = Engine::open(disk.log_folder(), Options::new()).unwrap();
    assert_entries_readable(&engine, written);
    let (more, e) = write_until_full(&engine);
    assert_no_room(&e);
    assert!(more > written + 4);
    assert_entries_readable(&engine, more);
}

/// Writes entries of ten thousand bytes one by one until there is no room, each with a compaction that leaves three of them.
/// Returns the index of the last one that was written.
fn write_compacted_until_full(engine: &Engine) -> u64 {
    let first = engine.last_index(7).unwrap().map_or(1, |last| last + 1);
    let mut batch = LogBatch::new().unwrap();
    for index in first.. {
        let entry = [[index as u8; ENTRY]];
        batch.add_entries(7, index, &entry).unwrap();
        batch.compact(7, index.saturating_sub(2)).unwrap();
        if let Err(e) = engine.write(&mut batch, true) {
            assert_no_room(&e);
            return index - 1;
        }
    }
    unreachable!()
}

/// Tests that an engine has the last three entries up to an index, or up to the next one, which was just being written.
fn assert_last_three(engine: &Engine, last: u64) {
    let entries = engine.entries(7, ..).unwrap();
    let indexes: Vec<_> = entries.iter().map(|(index, _)| index).collect();
    let found = *indexes.last().unwrap();
    assert!([last, last + 1].contains(&found), "{found} of {last}");
    assert!(indexes.into_iter().eq(found - 2..=found));
    assert!(
        entries
            .iter()
            .all(|(index, entry)| entry == [index as u8; ENTRY])
    );
}

#[test]
fn a_purge_frees_a_full_disk_so_that_writes_go_on() {
    let Some(disk) = SmallDisk::mount() else {
        return;
    };
    let options = || Options::new().target_file_size(3 * ENTRY as u64);
    let mut last = 0;
    for round in 0..4 {
        let engine = Engine::open(disk.log_folder(), options()).unwrap();
        let before = last;
        last = write_compacted_until_full(&engine);
        assert!(last > before + 8, "round {round}: {before} to {last}");
        // what was synced is read, and nothing is changed before there is room for the last batch
        assert_last_three(&engine, last);
        assert_no_room(&engine.purge().unwrap_err());
        drop(engine);
        let engine = open_unchanged(&disk.log_folder());
        assert_last_three(&engine, last);
        let asked = engine.stats();
        let purged = engine.purge().unwrap();
        assert!(purged.append_files >= 4, "round {round}: {purged:?}");
        let stats = engine.stats();
        assert_eq!(stats.rewrite, asked.rewrite, "nothing was written");
        assert!(stats.append.bytes < 70_000, "{stats:?}");
        assert_last_three(&engine, last);
    }
}

#[test]
fn a_write_that_found_no_room_halfway_is_made_once_there_is_some() {
    let Some(disk) = SmallDisk::mount() else {
        return;
    };
    disk.take_room();
    let engine = Engine::open(disk.log_folder(), Options::new()).unwrap();
    let (written, e) = write_until_full(&engine);
    assert_no_room(&e);
    let before = read_files(&disk.log_folder());
    // there was room for some pages of the batch, which were written and taken back, and not for all
    let room = (192 << 10) - before["0000000000000001.raftlog"].len();
    assert!((4096..ENTRY).contains(&room), "{room}");
    let mut batch = LogBatch::new().unwrap();
    batch.put(8, b"key", b"value").unwrap();
    for _ in 0..3 {
        let refused = [
            engine.write(&mut batch, true),
            engine.sync(),
            engine.rotate(),
            engine.rewrite(1),
            engine.purge().map(drop),
        ];
        for refused in refused {
            assert_eq!(refused, Err(e.clone()));
        }
        assert_eq!(batch.len(), 1);
        assert_eq!(engine.get(8, b"key").unwrap(), None);
        assert_entries_readable(&engine, written);
    }
    assert_eq!(read_files(&disk.log_folder()), before);
    disk.make_room();
    engine.write(&mut batch, true).unwrap();
    assert_eq!(engine.last_index(7).unwrap(), Some(written + 1));
    assert_eq!(engine.get(8, b"key").unwrap().unwrap(), b"value");
    let (more, e) = write_until_full(&engine);
    assert_no_room(&e);
    assert!(more > written + 4);
    assert_entries_readable(&engine, more);
    drop(engine);
    let engine = open_unchanged(&disk.log_folder());
    assert_eq!(engine.recovered().cuts().count(), 0);
    assert_eq!(engine.last_index(7).unwrap(), Some(more));
    assert_entries_readable(&engine, more);
}

#[test]
fn a_torn_tail_stays_uncut_where_there_is_no_room_to_keep_it() {
    let Some(disk) = SmallDisk::mount() else {
        return;
    };
    disk.take_room();
    let engine = Engine::open(disk.log_folder(), Options::new()).unwrap();
    let (written, _) = write_until_full(&engine);
    let whole = engine.stats().append.bytes;
    drop(engine);
    let path = disk.log_folder().join("0000000000000001.raftlog");
    let log = fs::OpenOptions::new().write(true).open(path).unwrap();
    log.set_len(whole - 5).unwrap();
    let before = read_files(&disk.log_folder());
    let e = Engine::open(disk.log_folder(), Options::new()).unwrap_err();
    assert_no_room(&e);
    assert!(e.text.contains(".cut: "), "{e}");
    let len = e.offset.unwrap();
    assert_eq!(e.file, Some(FIRST));
    assert_eq!(read_files(&disk.log_folder()), before);
    disk.make_room();
    let engine = Engine::open(disk.log_folder(), Options::new()).unwrap();
    let cut = engine.recovered().append.as_ref().unwrap();
    assert_eq!((cut.offset, cut.len), (len, whole - 5 - len));
    assert_entries_readable(&engine, written - 1);
    let kept = disk
        .log_folder()
        .join(format!("0000000000000001.raftlog.{len}.cut"));
    let log = &before["0000000000000001.raftlog"];
    assert_eq!(fs::read(kept).unwrap(), log[len as usize..]);
}

#[test]
fn a_write_that_finds_no_room_leaves_its_file_unchanged() -> io::Result<()> {
    let Some(disk) = SmallDisk::mount() else {
        return Ok(());
    };
    let files = FolderFiles::open(disk.log_folder()).unwrap();
    files.rotate(FIRST)?;
    files.write(FIRST, &[1; 100_000])?;
    let e = files.write(FIRST, &[2; 200_000]).unwrap_err();
    assert_eq!(e.kind(), io::ErrorKind::StorageFull);
    assert_eq!(files.list(Queue::Append)?, [(1, 100_000)]);
    assert!(files.is_as_before());
    files.write(FIRST, b"..")?;
    let mut bytes = vec![0; 100_002];
    files.read(FIRST, 0, &mut bytes)?;
    assert_eq!(bytes, [&[1; 100_000][..], b".."].concat());
    Ok(())
}

#[test]
fn a_purge_deletes_what_it_can_before_records_move() -> Result<()> {
    // many small batches may be written to the rewrite queue, but no records may move
    let files = MemoryFiles::new();
    let hooked = HookedFiles::new(&files, |call: Call<'_>| match call {
        Call::Write(file, bytes) if file.queue == Queue::Rewrite && bytes.len() > 500 => {
            Err(io::ErrorKind::StorageFull.into())
        }
        _ => Ok(()),
    });
    let options = Options::new().target_file_size(100).purge_above(500);
    let engine = Engine::with_files(hooked, options)?;
    for region in [8, 7] {
        for index in 1..=8 {
            write_batch(&engine, |batch| {
                batch.add_entries(region, index, &[[7; 100]])
            });
        }
    }
    write_batch(&engine, |batch| batch.clean(8)); // no record has to move out of the first eight files
    let before = files.asked();
    assert_no_room(&engine.purge().unwrap_err());
    let deleted = asks_as_words(&files, before);
    let deleted = deleted.iter().filter(|ask| ask.starts_with("delete"));
    let expected = (1..=8).map(|seq| format!("delete append file {seq}"));
    assert!(deleted.eq(&expected.collect::<Vec<_>>()));
    assert_eq!(engine.entries(7, ..)?.count(), 8);
    Ok(())
}
