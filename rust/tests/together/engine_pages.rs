//! Tests crashes with a disk that writes unsynced pages in any order: behind what was synced a page of zeros may stand before
//! others. An entry that was synced can be read then, or the files are refused with the place of the damage, whichever way the
//! entry was moving at the crash.

use crate::common::TempFolder;
use crate::common::engines::{new_engine, write_batch};
use raft_recover::{Ask, Engine, ErrorKind, FileId, MemoryFiles, Options, Queue, Unsynced};
use std::fs;

/// Returns the bytes that each entry of a region has: `len` of them, none of which is 0 for a region from 1 to 255.
fn entry_bytes(region: u64, len: usize) -> Vec<u8> {
    vec![region as u8; len]
}

/// Opens an engine whose regions, from 1 on, have so many entries, of so many bytes each, in the rewrite queue alone. All of it
/// is synced, and the append files that had them are deleted.
fn moved_engine(regions: u64, entries: usize, len: usize) -> Engine<MemoryFiles> {
    let options = Options::new().purge_above(1).purge_garbage(0);
    let engine = Engine::with_files(MemoryFiles::new(), options).unwrap();
    for region in 1..=regions {
        write_batch(&engine, |batch| {
            batch.add_entries(region, 1, &vec![entry_bytes(region, len); entries])
        });
    }
    engine.sync().unwrap();
    engine.rotate().unwrap();
    engine.rewrite(1).unwrap();
    assert_eq!(engine.purge().unwrap().append_files, 1);
    engine
}

/// Has a purge move records once more, and returns the files that a crash leaves once all of these records are written and before
/// they are synced. In the last rewrite file the entry bytes of one block are zeros: of the first block in the file, if
/// `is_first`, else of its last one. All other bytes of the rewrite queue are there; of the append queue what was synced.
///
/// Panics unless the records that moved last are all that stands in the last rewrite file, and were synced before a file was
/// deleted.
fn files_after_crash_in_purge(engine: &Engine<MemoryFiles>, is_first: bool) -> MemoryFiles {
    let files = engine.files();
    engine.purge().unwrap();
    let asks = files.asks();
    let is_moving = |ask: &Ask| matches!(ask, Ask::Write(file, _) if file.queue == Queue::Rewrite);
    let asked = asks.iter().rposition(is_moving).unwrap() + 1;
    let synced = asks[asked..]
        .iter()
        .position(|ask| *ask == Ask::Sync(Queue::Rewrite));
    let deleted = asks[asked..]
        .iter()
        .position(|ask| matches!(ask, Ask::Delete(_)));
    assert!(synced.unwrap() < deleted.unwrap());
    let most = files.unsynced(asked, Queue::Rewrite);
    let left = files.left(asked, Unsynced::default(), most);
    let mut rewrite = left.files(Queue::Rewrite);
    let (_, last) = rewrite.last_mut().unwrap();
    assert_eq!(
        most.steps,
        last.len() + 1,
        "the file was begun since the last sync"
    );
    let blocks = block_ranges(last);
    let lost = if is_first {
        blocks[0].clone()
    } else {
        blocks[blocks.len() - 1].clone()
    };
    last[lost].fill(0);
    MemoryFiles::found(left.files(Queue::Append), rewrite)
}

/// Returns for each batch of a file that has entries where their bytes stand: behind the 16 bytes of the header, up to the
/// checksum before the items. The first seven bytes of the header are the length of the batch, the last eight the offset of its
/// items.
fn block_ranges(bytes: &[u8]) -> Vec<std::ops::Range<usize>> {
    let (mut blocks, mut at) = (Vec::new(), 0);
    while at < bytes.len() {
        let number = |from: usize| u64::from_be_bytes(bytes[from..from + 8].try_into().unwrap());
        let items = number(at + 8) as usize;
        if items > 16 {
            blocks.push(at + 16..at + items - 4);
        }
        at += (number(at) >> 8) as usize;
    }
    blocks
}

/// Opens files that a crash left, and tests that the opening refuses them with a place, or that the entries 1 to `entries` of each
/// region are there, of `len` bytes each, before and after the next purge.
fn assert_refused_or_kept(left: MemoryFiles, regions: u64, entries: u64, len: usize) {
    let opened = match Engine::with_files(left, Options::new()) {
        Ok(opened) => opened,
        Err(e) => return assert!(e.file.is_some() && e.offset.is_some(), "{e}"),
    };
    for is_purged in [false, true] {
        if is_purged {
            opened.purge().unwrap();
        }
        for region in 1..=regions {
            for index in 1..=entries {
                let read = opened.entry(region, index);
                let read = read.map_err(|e| panic!("region {region}, entry {index}: {e}"));
                assert_eq!(read.unwrap().unwrap(), entry_bytes(region, len));
            }
        }
    }
}

#[test]
fn an_entry_stays_that_was_moving_again_when_the_machine_stopped() {
    assert_refused_or_kept(
        files_after_crash_in_purge(&moved_engine(1, 1, 100), true),
        1,
        1,
        100,
    );
}

#[test]
fn an_entry_stays_where_another_region_was_moving_too() {
    assert_refused_or_kept(
        files_after_crash_in_purge(&moved_engine(2, 1, 100), true),
        2,
        1,
        100,
    );
    assert_refused_or_kept(
        files_after_crash_in_purge(&moved_engine(2, 1, 100), false),
        2,
        1,
        100,
    );
}

#[test]
fn entries_stay_where_their_region_was_moving_in_a_group() {
    const LEN: usize = 100 << 10;
    assert_refused_or_kept(
        files_after_crash_in_purge(&moved_engine(1, 3, LEN), true),
        1,
        3,
        LEN,
    );
    assert_refused_or_kept(
        files_after_crash_in_purge(&moved_engine(1, 3, LEN), false),
        1,
        3,
        LEN,
    );
}

#[test]
fn an_entry_of_the_append_queue_stays_where_its_moved_copy_is_lost() {
    let engine = new_engine();
    write_batch(&engine, |batch| {
        batch.add_entries(1, 1, &[entry_bytes(1, 100)])
    });
    engine.rotate().unwrap();
    engine.rewrite(1).unwrap();
    let files = engine.files();
    let mut rewrite = files.files(Queue::Rewrite);
    let block = block_ranges(&rewrite[0].1).remove(0);
    rewrite[0].1[block].fill(0);
    let left = MemoryFiles::found(files.files(Queue::Append), rewrite);
    assert_refused_or_kept(left, 1, 1, 100);
}

#[test]
fn a_page_of_zeros_among_the_entries_of_the_last_append_file_is_named_by_its_batch() {
    const PAGE: usize = 4096;
    let room = TempFolder::new();
    let path = room.path().join("logs");
    let engine = Engine::open(&path, Options::new()).unwrap();
    for index in 1..=5 {
        write_batch(&engine, |batch| {
            batch.add_entries(7, index, &[entry_bytes(7, 3 * PAGE)])?;
            batch.put(7, b"key", &[index as u8])
        });
    }
    let last = engine.files().path_of(FileId::new(Queue::Append, 1));
    drop(engine);
    let mut bytes = fs::read(&last).unwrap();
    let third = block_ranges(&bytes)[2].clone();
    let page = third.start.next_multiple_of(PAGE);
    assert!(page + PAGE <= third.end);
    bytes[page..page + PAGE].fill(0);
    fs::write(&last, &bytes).unwrap();

    let read_only = Engine::open_read_only(&path, Options::new()).unwrap();
    let recovered = read_only.recovered().clone();
    drop(read_only);
    let engine = Engine::open(&path, Options::new()).unwrap();
    assert_eq!(engine.recovered(), &recovered);
    assert_eq!(recovered.cuts().count(), 0);
    let [named] = &recovered.damaged[..] else {
        panic!("{:?}", recovered.damaged)
    };
    assert_eq!(named.offset, third.start as u64 - 16);
    assert_eq!(named.file, FileId::new(Queue::Append, 1));
    let offset = named.offset;
    assert_eq!(
        named.to_string(),
        format!("append file 1, offset {offset}: the entries of this batch are damaged")
    );
    assert_eq!(named.reason.kind, ErrorKind::Corruption);
    assert_eq!(named.reason.text, format!("Corruption: {named}"));
    let place = (named.reason.file, named.reason.offset);
    assert_eq!(place, (Some(named.file), Some(offset)));
    for index in 1..=5 {
        let read = engine.entry(7, index);
        if index == 3 {
            let e = read.unwrap_err();
            assert_eq!((e.file, e.offset), (Some(named.file), Some(offset + 16)));
        } else {
            assert_eq!(read.unwrap().unwrap(), entry_bytes(7, 3 * PAGE));
        }
    }
    assert_eq!(engine.get(7, b"key").unwrap().unwrap(), [5]);
    assert_eq!(fs::read(&last).unwrap(), bytes);
}

#[test]
fn a_page_of_zeros_among_the_entries_of_the_last_batches_is_cut_off_and_kept_beside() {
    const PAGE: usize = 4096;
    let room = TempFolder::new();
    let path = room.path().join("logs");
    let engine = Engine::open(&path, Options::new()).unwrap();
    for index in 1..=5 {
        write_batch(&engine, |batch| {
            batch.add_entries(7, index, &[entry_bytes(7, 3 * PAGE)])?;
            batch.put(7, b"key", &[index as u8])
        });
    }
    let last = engine.files().path_of(FileId::new(Queue::Append, 1));
    drop(engine);
    let mut bytes = fs::read(&last).unwrap();
    let blocks = block_ranges(&bytes);
    for block in &blocks[3..] {
        let page = block.start.next_multiple_of(PAGE);
        assert!(page + PAGE <= block.end);
        bytes[page..page + PAGE].fill(0);
    }
    fs::write(&last, &bytes).unwrap();
    let kept = blocks[3].start - 16;

    let read_only = Engine::open_read_only(&path, Options::new()).unwrap();
    let recovered = read_only.recovered().clone();
    drop(read_only);
    assert_eq!(fs::read(&last).unwrap(), bytes);
    let engine = Engine::open(&path, Options::new()).unwrap();
    assert_eq!(engine.recovered(), &recovered);
    assert_eq!(recovered.damaged, []);
    let cut = recovered.append.unwrap();
    assert_eq!(
        (cut.offset, cut.len),
        (kept as u64, (bytes.len() - kept) as u64)
    );
    let reason = format!("append file 1, offset {kept}: the entries of this batch are damaged");
    assert_eq!(cut.reason.unwrap().text, format!("Corruption: {reason}"));
    assert_eq!(fs::read(&last).unwrap(), bytes[..kept]);
    let beside = path.join(format!("0000000000000001.raftlog.{kept}.cut"));
    assert_eq!(fs::read(beside).unwrap(), bytes[kept..]);

    let ends = |engine: &Engine| {
        (
            engine.last_index(7).unwrap(),
            engine.get(7, b"key").unwrap(),
        )
    };
    assert_eq!(ends(&engine), (Some(3), Some(vec![3])));
    write_batch(&engine, |batch| batch.add_entries(7, 4, &[b"another"]));
    engine.sync().unwrap();
    drop(engine);
    let engine = Engine::open(&path, Options::new()).unwrap();
    assert_eq!(engine.recovered().cuts().count(), 0);
    assert_eq!(ends(&engine), (Some(4), Some(vec![3])));
    assert_eq!(engine.entry(7, 4).unwrap().unwrap(), b"another");
}

#[test]
fn batches_cut_off_for_damaged_entries_stay_gone_after_a_crash() {
    let engine = new_engine();
    for index in 1..=4 {
        write_batch(&engine, |batch| {
            batch.add_entries(7, index, &[entry_bytes(7, 100)])
        });
    }
    let mut append = engine.files().files(Queue::Append);
    for block in block_ranges(&append[0].1).split_off(2) {
        append[0].1[block].fill(0);
    }
    let files = MemoryFiles::found(append, engine.files().files(Queue::Rewrite));
    let engine = Engine::with_files(files.clone(), Options::new()).unwrap();
    assert_eq!(engine.last_index(7).unwrap(), Some(2));
    let another = entry_bytes(8, 300); // longer than what was cut off
    write_batch(&engine, |batch| {
        batch.add_entries(7, 3, std::slice::from_ref(&another))
    });
    engine.sync().unwrap();
    let asks = files.asks();
    for asked in 0..=asks.len() {
        let is_synced = asked == asks.len();
        for steps in 0..=files.unsynced(asked, Queue::Append).steps {
            let unsynced = Unsynced {
                steps,
                ..Unsynced::default()
            };
            let left = files.left(asked, unsynced, Unsynced::default());
            let opened = Engine::with_files(left, Options::new()).unwrap();
            for index in [1, 2] {
                assert_eq!(opened.entry(7, index).unwrap(), Some(entry_bytes(7, 100)));
            }
            let third = opened.entry(7, 3).unwrap();
            assert!(third == Some(another.clone()) || !is_synced && third.is_none());
            assert_eq!(opened.entry(7, 4).unwrap(), None);
        }
    }
}
