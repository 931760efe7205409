//! Tests what an opening takes for a torn tail, and what for damage, which it refuses. Where a queue's last file can't be read
//! on, what is left is cut off if it may be part of a single batch, or has nothing that can be read.

use crate::common::{append_file, batch_bytes};
use raft_recover::{
    Engine, Error, ErrorKind, FileId, LogFile, MemoryFiles, Options, Queue, RecoveryMode, Version,
    crc32,
};

/// Returns the bytes of a file of four batches, each with two entries and a key, and where the batches begin.
fn four_batches(file: LogFile) -> (Vec<u8>, Vec<usize>) {
    let (mut bytes, mut places) = (Vec::new(), Vec::new());
    for n in 1..=4 {
        places.push(bytes.len());
        bytes.extend(batch_bytes(file, |batch| {
            batch.add_entries(7, 2 * n, &["first", "second"]).unwrap();
            batch.put(7, b"key", &n.to_le_bytes()).unwrap();
        }));
    }
    (bytes, places)
}

/// Returns a single file with this id and these bytes, as one that is found.
fn found_files(id: FileId, bytes: &[u8]) -> MemoryFiles {
    let held = vec![(id.seq, bytes.to_vec())];
    match id.queue {
        Queue::Append => MemoryFiles::found(held, vec![]),
        Queue::Rewrite => MemoryFiles::found(vec![], held),
    }
}

/// Opens a single file with this id and these bytes, and returns how many of these the opening leaves, and how many it cuts off.
/// Errs where it refuses the file.
fn open_and_measure(id: FileId, bytes: &[u8], options: &Options) -> Result<(u64, u64), Error> {
    let engine = Engine::with_files(found_files(id, bytes), options.clone())?;
    let cut = engine.recovered().cuts().map(|cut| cut.len).sum();
    Ok((bytes.len() as u64 - cut, cut))
}

/// Tests that a single file with this id and these bytes is refused with this offset and reason, also where it is opened for
/// reading only, and that nothing is asked of it but to read.
fn assert_refused(id: FileId, bytes: &[u8], offset: usize, reason: &str) {
    let text =
        format!("Corruption: {id}, offset {offset}: no batch can be read there, but {reason}");
    let place = (ErrorKind::Corruption, Some(id), Some(offset as u64));
    for read_only in [false, true] {
        let files = found_files(id, bytes);
        let engine = match read_only {
            false => Engine::with_files(files.clone(), Options::new()),
            true => Engine::with_files_read_only(files.clone(), Options::new()),
        };
        let e = engine.unwrap_err();
        assert_eq!((e.kind, e.file, e.offset), place, "{e}");
        assert_eq!(e.text, text);
        assert_eq!(files.asked(), 0);
    }
}

#[test]
fn a_changed_bit_in_front_of_a_batch_that_can_be_read_is_damage() {
    for queue in [Queue::Append, Queue::Rewrite] {
        let id = FileId::new(queue, 1);
        let (bytes, places) = four_batches(LogFile::new(queue, 1, Version::V2));
        for pair in places.windows(2) {
            let (at, next) = (pair[0], pair[1]);
            let items = u64::from_be_bytes(bytes[at + 8..at + 16].try_into().unwrap()) as usize;
            for i in (at..at + 16).chain(at + items..next) {
                let mut bytes = bytes.clone();
                bytes[i] ^= 1 << (i % 8);
                let reason = format!("one stands behind it, at offset {next}");
                assert_refused(id, &bytes, at, &reason);
            }
        }
    }
}

#[test]
fn a_last_batch_that_cant_be_read_is_cut_as_a_whole() {
    let (bytes, places) = four_batches(append_file(1));
    let last = places[3];
    let id = FileId::from(append_file(1));
    // the first bytes of the header, of the items, and the last one of the checksum
    let items = u64::from_be_bytes(bytes[last + 8..last + 16].try_into().unwrap()) as usize;
    for i in [last, last + 7, last + 15, last + items, bytes.len() - 1] {
        let mut bytes = bytes.clone();
        bytes[i] ^= 0x80;
        let cut = (bytes.len() - last) as u64;
        let left = open_and_measure(id, &bytes, &Options::new()).unwrap();
        assert_eq!(left, (last as u64, cut), "{i}");
    }
}

#[test]
fn a_changed_bit_in_the_last_checksum_is_refused_where_it_signs_for_another_file() {
    let (bytes, places) = four_batches(append_file(1));
    let (id, last) = (FileId::from(append_file(1)), places[3]);
    for bit in 0..32 {
        let mut bytes = bytes.clone();
        let at = bytes.len() - 4 + bit / 8;
        bytes[at] ^= 1 << (bit % 8);
        // the checksum is combined with the file's number, 1, and numbers from 1 to 2^24 - 1 are looked for
        match 1_u64 ^ (1 << bit) {
            seq @ 1..0x100_0000 => {
                let reason = format!("at offset {last} one stands that is signed for file {seq}");
                assert_refused(id, &bytes, last, &reason);
            }
            _ => {
                let cut = (bytes.len() - last) as u64;
                let left = open_and_measure(id, &bytes, &Options::new()).unwrap();
                assert_eq!(left, (last as u64, cut), "{bit}");
            }
        }
    }
}

#[test]
fn a_file_signed_for_another_number_is_refused_and_that_number_is_named() {
    for queue in [Queue::Append, Queue::Rewrite] {
        let (bytes, places) = four_batches(LogFile::new(queue, 3, Version::V2));
        let taken = FileId::new(queue, 2);
        let reason = |at: usize| format!("at offset {at} one stands that is signed for file 3");
        assert_refused(taken, &bytes, 0, &reason(0));
        assert_refused(taken, &bytes[..places[1]], 0, &reason(0));
        assert_refused(taken, &bytes[..places[2] - 1], 0, &reason(0));
        let mut behind = four_batches(LogFile::new(queue, 2, Version::V2)).0;
        let len = behind.len();
        behind.extend_from_slice(&bytes);
        assert_refused(taken, &behind, len, &reason(len));
    }
}

#[test]
fn batches_of_version_1_say_nothing_of_their_file() {
    let (bytes, _) = four_batches(LogFile::new(Queue::Append, 3, Version::V1));
    let options = Options::new().version(Version::V1);
    let taken = FileId::new(Queue::Append, 2);
    let left = open_and_measure(taken, &bytes, &options).unwrap();
    assert_eq!(left, (bytes.len() as u64, 0));
}

#[test]
fn a_part_of_one_batch_is_cut_whatever_its_entries_hold() {
    let (held, places) = four_batches(append_file(1));
    let another = four_batches(append_file(3)).0;
    let mut bytes = held[..places[1]].to_vec();
    bytes.extend(batch_bytes(append_file(1), |batch| {
        batch.add_entries(8, 1, &[&held, &another]).unwrap();
        batch.put(8, b"key", &held).unwrap();
    }));
    let front = places[1] as u64;
    let id = FileId::from(append_file(1));
    for len in places[1]..bytes.len() {
        let left = open_and_measure(id, &bytes[..len], &Options::new()).unwrap();
        assert_eq!(left, (front, len as u64 - front), "{len}");
    }
    // with a batch behind it, it isn't part of one
    let len = bytes.len();
    bytes.extend_from_slice(&held[..places[1]]);
    bytes[len - 1] ^= 0x80;
    let e = open_and_measure(id, &bytes, &Options::new()).unwrap_err();
    assert_eq!((e.kind, e.offset), (ErrorKind::Corruption, Some(front)));
}

#[test]
fn an_entry_that_ends_behind_its_block_is_refused_by_region_and_index() {
    // of region 7 the entries 10 and 11, which end at the bytes 2 and 5 of no bytes
    let items = [1, 7, 1, 2, 10, 2, 3];
    let (len, block_end) = (16 + items.len() as u64 + 4, 16u64);
    let mut bytes = (len << 8).to_be_bytes().to_vec();
    bytes.extend(block_end.to_be_bytes());
    bytes.extend(items);
    bytes.extend(crc32(&items).to_le_bytes());
    let first = FileId::new(Queue::Append, 1);
    let options = Options::new().version(Version::V1);
    let engine = Engine::with_files(found_files(first, &bytes), options).unwrap();
    assert_eq!(engine.last_index(7).unwrap(), Some(11));
    for (index, e) in [
        (10, engine.entry(7, 10).unwrap_err()),
        (11, engine.entry(7, 11).unwrap_err()),
        (10, engine.entries(7, ..).unwrap_err()),
    ] {
        assert_eq!((e.kind, e.file), (ErrorKind::Corruption, Some(first)));
        assert_eq!((e.region, e.index), (Some(7), Some(index)));
        let place = format!("Corruption: region 7, index {index}, append file 1, offset ");
        assert!(e.text.starts_with(&place), "{e}");
    }
}

/// Returns the options that are the default, with this recovery mode.
fn options_in_mode(mode: RecoveryMode) -> Options {
    Options::new().recovery_mode(mode)
}

#[test]
fn nothing_is_cut_in_the_strict_mode() {
    let strict = options_in_mode(RecoveryMode::AbsoluteConsistency);
    for queue in [Queue::Append, Queue::Rewrite] {
        let id = FileId::new(queue, 1);
        let (bytes, places) = four_batches(LogFile::new(queue, 1, Version::V2));
        let whole = open_and_measure(id, &bytes, &strict).unwrap();
        assert_eq!(whole, (bytes.len() as u64, 0));
        // a torn tail, and damage
        let mut damaged = bytes.clone();
        damaged[places[1]] ^= 1;
        for (bytes, at) in [
            (&bytes[..bytes.len() - 1], places[3]),
            (&damaged, places[1]),
        ] {
            let e = open_and_measure(id, bytes, &strict).unwrap_err();
            let reason = "no batch can be read there, and nothing may be cut off";
            assert_eq!(e.text, format!("Corruption: {id}, offset {at}: {reason}"));
            let place = (ErrorKind::Corruption, Some(id), Some(at as u64));
            assert_eq!((e.kind, e.file, e.offset), place);
        }
    }
}

#[test]
fn all_from_damage_on_is_cut_in_the_mode_that_tolerates_it() {
    let tolerant = options_in_mode(RecoveryMode::TolerateTailCorruption);
    for queue in [Queue::Append, Queue::Rewrite] {
        let id = FileId::new(queue, 1);
        let (bytes, places) = four_batches(LogFile::new(queue, 1, Version::V2));
        for at in places {
            let mut bytes = bytes.clone();
            bytes[at] ^= 1;
            let cut = (bytes.len() - at) as u64;
            let left = open_and_measure(id, &bytes, &tolerant).unwrap();
            assert_eq!(left, (at as u64, cut), "{at}");
            let engine = Engine::with_files(found_files(id, &bytes), tolerant.clone()).unwrap();
            let told = engine.recovered().cuts().next().unwrap();
            assert_eq!((told.file, told.offset, told.len), (id, at as u64, cut));
            let reason = told.reason.as_ref().unwrap();
            assert_eq!((reason.file, reason.offset), (Some(id), Some(at as u64)));
            assert_ne!(reason.kind, ErrorKind::Memory);
            // what was cut is cut for good: the other modes open what is left
            let held = engine.files().files(queue).remove(0).1;
            assert!(held.starts_with(&bytes[..at]));
            for mode in [
                RecoveryMode::AbsoluteConsistency,
                RecoveryMode::TolerateTornTail,
            ] {
                let left = open_and_measure(id, &held, &options_in_mode(mode)).unwrap();
                assert_eq!(left, (held.len() as u64, 0));
            }
        }
    }
}

#[test]
fn a_missing_file_and_one_of_the_other_version_are_refused_in_each_mode() {
    let (first, _) = four_batches(append_file(1));
    let (third, _) = four_batches(append_file(3));
    for mode in [
        RecoveryMode::AbsoluteConsistency,
        RecoveryMode::TolerateTornTail,
        RecoveryMode::TolerateTailCorruption,
    ] {
        let held = vec![(1, first.clone()), (3, third.clone())];
        let e = Engine::with_files(MemoryFiles::found(held, vec![]), options_in_mode(mode))
            .unwrap_err();
        let missing = FileId::new(Queue::Append, 2);
        assert_eq!((e.kind, e.file), (ErrorKind::Corruption, Some(missing)));
        let options = options_in_mode(mode).version(Version::V1);
        let e = open_and_measure(FileId::from(append_file(1)), &first, &options).unwrap_err();
        let text = "Corruption: append file 1, offset 0: a batch of the other version stands there";
        assert_eq!(e.text, text);
    }
}
