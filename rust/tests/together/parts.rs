//! Tests parts of files: their batches one by one, and where one can't be read.

use crate::common::{append_file, append_parts, batch_bytes, demo_files};
use raft_recover::{
    Batches, Content, Context, ErrorKind, FileId, FilePart, LogFile, Queue, Version,
    readable_front, recover,
};

#[test]
fn the_batches_of_a_part_are_read_item_by_item() {
    let files = demo_files();
    let (mut batches, mut items, mut entries) = (0, 0, 0);
    for part in &append_parts(&files)[..3] {
        for batch in Batches::new(*part).unwrap() {
            let batch = batch.unwrap();
            batches += 1;
            items += batch.len();
            assert_eq!(batch.iter().count(), batch.len());
            assert_eq!(batch.get(batch.len()), None);
            for item in batch.iter() {
                if let Content::Entries(list) = item.content {
                    entries += list.len();
                    assert!(
                        list.iter()
                            .all(|entry| entry.block.file.seq == part.file.seq)
                    );
                }
            }
        }
    }
    // as demo/README.md says
    assert_eq!((batches, items, entries), (36, 107, 108));
}

#[test]
fn a_readable_front_ends_before_a_torn_batch() {
    let files = demo_files();
    let whole = append_parts(&files)[0];
    assert_eq!(readable_front(whole).unwrap(), (whole.bytes.len(), None));
    let cut = FilePart {
        bytes: &whole.bytes[..whole.bytes.len() - 1],
        ..whole
    };
    let mut batches = Batches::new(cut).unwrap();
    let mut last = 0;
    let refused = loop {
        let at = batches.next_at().unwrap();
        match batches.next() {
            Some(Ok(_)) => last = batches.next_at().unwrap(),
            Some(Err(e)) => {
                assert_eq!(at, last);
                break e;
            }
            None => panic!("the last batch is cut short"),
        }
    };
    assert_eq!(refused.kind, ErrorKind::Corruption);
    assert_eq!(readable_front(cut).unwrap(), (last, Some(refused)));
    assert!(batches.next().is_none());
    let past = FilePart {
        offset: u64::MAX,
        ..whole
    };
    assert_eq!(
        readable_front(past).unwrap_err().kind,
        ErrorKind::InvalidArgument
    );
    assert_eq!(
        Batches::new(past).unwrap_err().kind,
        ErrorKind::InvalidArgument
    );
}

#[test]
fn nothing_is_read_behind_a_batch_that_is_refused() {
    let sound = batch_bytes(append_file(1), |batch| batch.clean(7).unwrap());
    let torn = [&sound[..], &sound[..20], &sound[..]].concat();
    let mut batches = Batches::new(FilePart::new(append_file(1), &torn)).unwrap();
    assert!(batches.next().unwrap().is_ok());
    assert_eq!(batches.next_at(), Some(sound.len()));
    assert!(batches.next().unwrap().is_err());
    assert_eq!(batches.next_at(), None);
    assert!(batches.next().is_none());
}

#[test]
fn a_refusal_names_the_file_of_either_queue() {
    for queue in [Queue::Append, Queue::Rewrite] {
        for version in [Version::V1, Version::V2] {
            for seq in [0, 3, u64::MAX] {
                let file = LogFile::new(queue, seq, version);
                let mut bytes = batch_bytes(file, |batch| batch.clean(7).unwrap());
                bytes.extend([7; 100]);
                let part = FilePart::new(file, &bytes);
                let e = Context::new().unwrap().replay(part).unwrap_err();
                let offset = bytes.len() as u64 - 100;
                assert_eq!((e.file, e.offset), (Some(file.into()), Some(offset)), "{e}");
            }
        }
    }
}

#[test]
fn a_torn_tail_of_any_length_is_refused() {
    let sound = batch_bytes(append_file(1), |batch| batch.clean(7).unwrap());
    for len in 1..sound.len() {
        let torn = [&sound[..], &sound[..len]].concat();
        let part = FilePart::new(append_file(1), &torn);
        let (front, refused) = readable_front(part).unwrap();
        assert_eq!((front, refused.is_some()), (sound.len(), true), "{len}");
        let batches = Batches::new(part).unwrap();
        assert_eq!(batches.map(|batch| batch.err()).last(), Some(refused));
    }
}

#[test]
fn a_part_may_begin_anywhere_and_end_at_the_last_offset() {
    let sound = batch_bytes(append_file(3), |batch| batch.clean(7).unwrap());
    let torn = [&sound[..], &sound[..20]].concat();
    let part = |offset| FilePart {
        offset,
        ..FilePart::new(append_file(3), &torn)
    };
    let last = u64::MAX - torn.len() as u64;
    for offset in [0, 1, 1 << 40, last] {
        let refused = Context::new().unwrap().replay(part(offset)).unwrap_err();
        assert_eq!(refused.file, Some(FileId::new(Queue::Append, 3)));
        assert_eq!(refused.offset, Some(offset + sound.len() as u64));
        let mut batches = Batches::new(part(offset)).unwrap();
        assert_eq!(batches.nth(1).unwrap().unwrap_err(), refused);
        let front = readable_front(part(offset)).unwrap();
        assert_eq!(front, (sound.len(), Some(refused)));
    }
    let past = part(last + 1);
    let results = [
        readable_front(past).map(drop),
        Batches::new(past).map(drop),
        Context::new().unwrap().replay(past),
    ];
    for result in results {
        assert_eq!(result.unwrap_err().kind, ErrorKind::InvalidArgument);
    }
}

#[test]
fn offsets_of_entries_count_from_the_offset_of_their_part() {
    let bytes = batch_bytes(append_file(3), |batch| {
        batch.add_entries(7, 1, &["an entry"]).unwrap();
    });
    let twice = bytes.repeat(2);
    for offset in [0, 1, 1 << 40] {
        let part = FilePart {
            offset,
            ..FilePart::new(append_file(3), &twice)
        };
        let expected = [0, bytes.len()].map(|at| offset + at as u64 + 16);
        let blocks = Batches::new(part).unwrap().map(|batch| {
            let Content::Entries(entries) = batch.unwrap().get(0).unwrap().content else {
                panic!("a batch has entries");
            };
            entries[0].block.offset
        });
        assert_eq!(blocks.collect::<Vec<_>>(), expected);
        // the second one stands over the first
        let tables = recover(&[part], Queue::Append, 1).unwrap();
        assert_eq!(tables.entry(7, 1).unwrap().block.offset, expected[1]);
    }
}
