//! Tests files of which something synced was changed or taken away: an opening refuses them and names the place, or says what it
//! cuts off. Two losses look like what a crash leaves, and can't be told from it: a queue's last file that is gone, and damage in
//! its last batch.

use crate::common::engines::write_batch;
use crate::common::model::{Region, read_region};
use raft_recover::{
    Engine, Error, ErrorKind, FileId, LogBatch, MemoryFiles, Options, Queue, Result,
};

/// The first append file.
const FIRST: FileId = FileId::new(Queue::Append, 1);

/// Returns a copy of `files`, as files that are found, which `change` has changed: it gets the numbers and the bytes of the append
/// files, and then those of the rewrite files. `files` itself isn't changed.
fn found_with_change(
    files: &MemoryFiles,
    change: impl FnOnce(&mut [Vec<(u64, Vec<u8>)>; 2]),
) -> MemoryFiles {
    let mut held = [Queue::Append, Queue::Rewrite].map(|queue| files.files(queue));
    change(&mut held);
    let [append, rewrite] = held;
    MemoryFiles::found(append, rewrite)
}

/// Returns a single file with `count` batches of one entry each, all of them synced.
fn file_of_entries(count: u64) -> MemoryFiles {
    let files = MemoryFiles::new();
    let engine = Engine::with_files(files.clone(), Options::new()).unwrap();
    for index in 1..=count {
        write_batch(&engine, |batch| {
            batch.add_entries(7, index, &[format!("entry {index}")])
        });
    }
    engine.sync().unwrap();
    files
}

/// Tests that an opening refuses files, with an error that names this place and this reason, and asks nothing of them but to read.
fn assert_refused(found: MemoryFiles, file: FileId, offset: u64, reason: &str) {
    let e = Engine::with_files(found.clone(), Options::new()).unwrap_err();
    let place = (ErrorKind::Corruption, Some(file), Some(offset));
    assert_eq!((e.kind, e.file, e.offset), place, "{e}");
    assert_eq!(
        e.text,
        format!("Corruption: {file}, offset {offset}: {reason}")
    );
    assert_eq!(found.asked(), 0);
}

#[test]
fn a_changed_bit_among_3_050_synced_entries_is_refused_by_its_place() {
    let files = file_of_entries(3050);
    let with_bit =
        |at: usize, bit: u8| found_with_change(&files, |[append, _]| append[0].1[at] ^= 1 << bit);
    let reason =
        |at: u64| format!("no batch can be read there, but one stands behind it, at offset {at}");
    // of the first batch, which has 37 bytes, the length
    assert_refused(with_bit(0, 0), FIRST, 0, &reason(37));
    // 9 batches of 37 bytes, 90 of 38 and 7 of 39 stand before it
    assert_refused(with_bit(4030, 0), FIRST, 4026, &reason(4065));
}

#[test]
fn a_file_of_3_050_synced_entries_that_gets_another_number_is_refused() {
    let found = found_with_change(&file_of_entries(3050), |[append, _]| append[0].0 = 2);
    let reason = "no batch can be read there, but at offset 0 one stands that is signed for file 1";
    assert_refused(found, FileId::new(Queue::Append, 2), 0, reason);
}

/// Returns seven append files: each of them has an entry of region 7, and a newer value of its key `vote`.
fn seven_files() -> MemoryFiles {
    let files = MemoryFiles::new();
    let options = Options::new().target_file_size(1);
    let engine = Engine::with_files(files.clone(), options).unwrap();
    for index in 1..=6_u64 {
        write_batch(&engine, |batch| {
            batch.add_entries(7, index, &[index.to_string()])?;
            batch.put(7, b"vote", &index.to_le_bytes())
        });
    }
    assert_eq!(files.files(Queue::Append).len(), 7);
    files
}

#[test]
fn of_two_missing_files_the_first_one_is_named() {
    let found = found_with_change(&seven_files(), |[append, _]| {
        append.retain(|(seq, _)| ![3, 6].contains(seq))
    });
    let third = FileId::new(Queue::Append, 3);
    assert_refused(found, third, 0, "it is missing, files 2 and 4 are there");
}

#[test]
fn a_queue_whose_last_files_are_gone_is_opened_without_them() -> Result<()> {
    let found = found_with_change(&seven_files(), |[append, _]| append.truncate(5));
    let engine = Engine::with_files(found, Options::new())?;
    assert_eq!(engine.recovered().cuts().count(), 0);
    assert_eq!(engine.last_index(7)?, Some(5));
    assert_eq!(engine.get(7, b"vote")?.unwrap(), 5_u64.to_le_bytes());
    // and of the rewrite queue
    let files = moved_files()?;
    let found = found_with_change(&files, |[_, rewrite]| rewrite.clear());
    let engine = Engine::with_files(found, Options::new())?;
    assert_eq!(engine.recovered().cuts().count(), 0);
    let left = read_regions(&engine)?;
    assert_eq!(left[..2], [Region::default(), Region::default()]);
    assert_eq!(
        left[2],
        read_regions(&Engine::with_files(files, Options::new())?)?[2]
    );
    Ok(())
}

/// Returns the files of an engine whose regions 1 and 2 are in the rewrite queue alone, in a batch each, and region 3 in the
/// append queue.
fn moved_files() -> Result<MemoryFiles> {
    let files = MemoryFiles::new();
    let engine = Engine::with_files(files.clone(), Options::new())?;
    for region in [1, 2] {
        write_batch(&engine, |batch| {
            batch.add_entries(region, 1, &[[region as u8; 20]; 3])?;
            batch.put(region, b"a", &[region as u8])
        });
    }
    engine.rotate()?;
    engine.rewrite(1)?;
    assert_eq!(engine.purge()?.append_files, 1);
    write_batch(&engine, |batch| batch.add_entries(3, 1, &["an entry"]));
    engine.sync()?;
    Ok(files)
}

/// Reads what an engine has of the regions 1 to 3, in order. Errs where one can't be read.
fn read_regions(engine: &Engine<MemoryFiles>) -> Result<Vec<Region>> {
    (1..=3).map(|id| read_region(engine, id)).collect()
}

#[test]
fn each_changed_bit_of_the_last_rewrite_file_is_refused_or_cut_off() -> Result<()> {
    let files = moved_files()?;
    let held = files.files(Queue::Rewrite);
    let [(seq, bytes)] = &held[..] else {
        panic!("{} files", held.len());
    };
    let (file, last) = (FileId::new(Queue::Rewrite, *seq), last_batch_start(bytes));
    assert!(0 < last);
    let cut = found_with_change(&files, |[_, rewrite]| rewrite[0].1.truncate(last));
    let before_last = read_regions(&Engine::with_files(cut, Options::new())?)?;
    let mut outcomes = [0; 2];
    for at in 0..bytes.len() {
        for bit in 0..8 {
            let found = found_with_change(&files, |[_, rewrite]| rewrite[0].1[at] ^= 1 << bit);
            match Engine::with_files(found, Options::new()) {
                Ok(engine) => {
                    let cut = engine.recovered().rewrite.as_ref().unwrap();
                    let len = (bytes.len() - last) as u64;
                    assert_eq!((cut.file, cut.offset, cut.len), (file, last as u64, len));
                    assert_eq!(read_regions(&engine)?, before_last);
                    assert!(at >= last, "byte {at}");
                    outcomes[1] += 1;
                }
                Err(e) => {
                    assert_error_place(&e, file, if at < last { 0 } else { last });
                    outcomes[0] += 1;
                }
            }
        }
    }
    assert!(outcomes.iter().all(|count| *count > 100), "{outcomes:?}");
    Ok(())
}

/// Returns where the second of two batches begins, from the length of the first one: its first seven bytes.
fn last_batch_start(bytes: &[u8]) -> usize {
    (u64::from_be_bytes(bytes[..8].try_into().unwrap()) >> 8) as usize
}

/// Tests that an error is one of damage, and names this file and offset.
fn assert_error_place(e: &Error, file: FileId, offset: usize) {
    let place = (ErrorKind::Corruption, Some(file), Some(offset as u64));
    assert_eq!((e.kind, e.file, e.offset), place, "{e}");
}

#[test]
fn three_hundred_openings_with_a_write_each_add_just_the_bytes_of_these_writes() -> Result<()> {
    let (mut found, mut written) = (MemoryFiles::new(), 0_u64);
    for index in 1..=300_u64 {
        let engine = Engine::with_files(found.clone(), Options::new())?;
        let mut batch = LogBatch::new()?;
        batch.add_entries(7, index, &[[7; 100]])?;
        engine.write(&mut batch, true)?;
        written = engine.stats().append.bytes;
        let entries = read_region(&engine, 7)?.entries;
        assert!(entries.keys().copied().eq(1..=index));
        drop(engine);
        found = found_with_change(&found, |_| ());
    }
    let held = [Queue::Append, Queue::Rewrite].map(|queue| found.files(queue));
    let bytes = held.map(|held| held.iter().map(|(_, bytes)| bytes.len()).sum::<usize>());
    // each batch has 130 bytes, and one more from index 128 on
    assert_eq!(bytes, [300 * 130 + 173, 0]);
    assert_eq!(written, 300 * 130 + 173);
    Ok(())
}
