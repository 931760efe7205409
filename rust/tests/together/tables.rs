//! Tests tables.

use crate::common::{
    append_file, append_parts, demo_files, entries_in_file, entry_in_file, readme_lines,
};
use raft_recover::{
    Batches, Block, Content, Entry, ErrorKind, FileId, LogBatch, LogFile, Pair, Queue, Result,
    Summary, Tables, crc32, recover,
};

/// Append file 9.
const APPEND_9: FileId = FileId {
    queue: Queue::Append,
    seq: 9,
};

#[test]
fn entries_are_appended_read_and_dropped() {
    let mut tables = Tables::new().unwrap();
    tables
        .append(7, &entries_in_file(Queue::Append, 9, 10..20))
        .unwrap();
    assert_eq!(tables.compact(7, 13).unwrap(), 3);
    assert_eq!(tables.truncate(7, 19).unwrap(), 1);
    assert_eq!(tables.entry(7, 12), None);
    assert_eq!(
        tables.entry(7, 13),
        Some(entry_in_file(Queue::Append, 9, 13))
    );
    assert_eq!(tables.entry(8, 13), None);
    assert_eq!(
        tables.entries(7, 14..16, None).unwrap(),
        entries_in_file(Queue::Append, 9, 14..16)
    );
    // the third entry would pass 25 bytes
    assert_eq!(tables.entries(7, 13..19, Some(25)).unwrap().len(), 2);
    assert_eq!(tables.entries(7, 13..13, None).unwrap(), []);
    let kind = |range| tables.entries(7, range, None).unwrap_err().kind;
    assert_eq!(kind(12..14), ErrorKind::EntryCompacted);
    assert_eq!(kind(13..20), ErrorKind::EntryNotFound);
    let e = tables.entries(8, 0..1, None).unwrap_err();
    assert_eq!(e.kind, ErrorKind::EntryNotFound);
    assert_eq!(
        tables.to_string(),
        "7 entries 13..19 keys 0 append 9 rewrite -\ncleaned -\nlive 6 0\n"
    );
}

#[test]
fn entries_keep_their_blocks_offsets_and_lengths() {
    let place = |queue, index, offset, len| Entry {
        index,
        block: Block {
            file: FileId { queue, seq: 5 },
            offset: 1 << 40,
            len: 100,
        },
        offset,
        len,
    };
    let run = [
        place(Queue::Append, 1, 0, 10),
        place(Queue::Append, 2, 10, 0),
        place(Queue::Append, 3, 10, 86),
    ];
    let mut tables = Tables::new().unwrap();
    tables.append(7, &run).unwrap();
    assert_eq!(tables.entries(7, 1..4, None).unwrap(), run);
    let moved = [
        place(Queue::Rewrite, 1, 3, 10),
        place(Queue::Rewrite, 2, 2, 0),
    ];
    tables.rewrite(7, &moved, Some(5)).unwrap();
    assert_eq!(tables.rewritten_entries(7).unwrap(), moved);
    assert_eq!(tables.entry(7, 3), Some(run[2]));
}

#[test]
fn runs_that_do_not_fit_are_refused_and_change_nothing() {
    let mut tables = Tables::new().unwrap();
    tables
        .append(7, &entries_in_file(Queue::Append, 9, 10..20))
        .unwrap();
    let before = tables.to_string();
    let mut kind = |entries: &[_]| tables.append(7, entries).unwrap_err().kind;
    let hole = entries_in_file(Queue::Append, 9, 30..31);
    let gap = [
        entry_in_file(Queue::Append, 9, 15),
        entry_in_file(Queue::Append, 9, 17),
    ];
    let rewritten = entries_in_file(Queue::Rewrite, 9, 20..21);
    assert_eq!(kind(&hole), ErrorKind::Corruption);
    assert_eq!(kind(&gap), ErrorKind::InvalidArgument);
    assert_eq!(kind(&rewritten), ErrorKind::InvalidArgument);
    assert_eq!(tables.to_string(), before);
}

#[test]
fn keys_are_put_read_and_deleted() {
    let mut tables = Tables::new().unwrap();
    tables.put(3, b"a", b"one", APPEND_9).unwrap();
    tables.put(3, b"b", b"", APPEND_9).unwrap();
    tables.put(3, b"", b"two", APPEND_9).unwrap();
    assert_eq!(tables.value(3, b"a").unwrap(), b"one");
    assert_eq!(tables.value(3, b"b").unwrap(), b"");
    assert_eq!(tables.value(3, b"").unwrap(), b"two");
    assert_eq!(tables.value(3, b"c"), None);
    assert_eq!(tables.value(4, b"a"), None);
    tables.delete(3, b"a").unwrap();
    assert_eq!(tables.value(3, b"a"), None);
    assert_eq!(
        (tables.live(Queue::Append), tables.live(Queue::Rewrite)),
        (2, 0)
    );
}

#[test]
fn records_move_up_to_the_gate() {
    let mut tables = Tables::new().unwrap();
    tables
        .append(7, &entries_in_file(Queue::Append, 9, 10..12))
        .unwrap();
    tables
        .append(7, &entries_in_file(Queue::Append, 10, 12..14))
        .unwrap();
    tables.put(7, b"k", b"v", APPEND_9).unwrap();
    assert_eq!(
        tables.entries_before(7, 9).unwrap(),
        entries_in_file(Queue::Append, 9, 10..12)
    );
    tables
        .rewrite(7, &entries_in_file(Queue::Rewrite, 2, 10..12), Some(9))
        .unwrap();
    tables.rewrite_key(7, b"k", Some(9), 2).unwrap();
    assert_eq!(tables.entries_before(7, 9).unwrap(), []);
    assert_eq!(
        tables.rewritten_entries(7).unwrap(),
        entries_in_file(Queue::Rewrite, 2, 10..12)
    );
    assert_eq!(
        tables.summary(7).unwrap(),
        Summary {
            entries: 4,
            keys: 1,
            first_index: Some(10),
            append_seq: Some(10),
            rewrite_seq: Some(2),
        }
    );
    assert_eq!(
        (tables.live(Queue::Append), tables.live(Queue::Rewrite)),
        (2, 3)
    );
    let e = tables.rewrite_key(7, b"k", None, 1).unwrap_err();
    assert_eq!(e.kind, ErrorKind::Corruption);
}

#[test]
fn nothing_moves_that_is_in_a_file_above_the_gate() {
    let mut tables = Tables::new().unwrap();
    tables
        .append(7, &entries_in_file(Queue::Append, 9, 10..12))
        .unwrap();
    tables
        .append(7, &entries_in_file(Queue::Append, 10, 12..14))
        .unwrap();
    tables.put(7, b"k", b"v", APPEND_9).unwrap();
    let moved = entries_in_file(Queue::Rewrite, 2, 10..14);
    tables.rewrite(7, &moved, Some(9)).unwrap();
    assert_eq!(tables.rewritten_entries(7).unwrap(), moved[..2]);
    tables.rewrite_key(7, b"k", Some(8), 2).unwrap();
    assert_eq!(tables.rewritten_pairs(7).unwrap(), []);
    tables.rewrite_key(7, b"k", None, 2).unwrap();
    assert_eq!(tables.rewritten_pairs(7).unwrap(), []);
    // without a gate those move that are rewritten already
    let again = entries_in_file(Queue::Rewrite, 3, 10..14);
    tables.rewrite(7, &again, None).unwrap();
    assert_eq!(tables.rewritten_entries(7).unwrap(), again[..2]);
}

#[test]
fn a_gate_or_a_limit_of_0_is_not_none() {
    let mut tables = Tables::new().unwrap();
    let first = FileId { seq: 0, ..APPEND_9 };
    tables
        .append(7, &entries_in_file(Queue::Append, 0, 10..14))
        .unwrap();
    tables.put(7, b"k", b"v", first).unwrap();
    // the first entry is returned whatever its length
    assert_eq!(tables.entries(7, 10..14, Some(0)).unwrap().len(), 1);
    let moved = entries_in_file(Queue::Rewrite, 2, 10..12);
    tables.rewrite(7, &moved, Some(0)).unwrap();
    tables.rewrite_key(7, b"k", Some(0), 2).unwrap();
    assert_eq!(tables.rewritten_entries(7).unwrap(), moved);
    assert_eq!(
        (tables.live(Queue::Append), tables.live(Queue::Rewrite)),
        (2, 3)
    );
}

#[test]
fn a_first_index_or_a_file_of_0_is_not_none() {
    let mut tables = Tables::new().unwrap();
    let mut seen = |change: &dyn Fn(&mut Tables) -> Result<()>| {
        change(&mut tables).unwrap();
        let summary = tables.summary(7).unwrap();
        (summary.first_index, summary.append_seq, summary.rewrite_seq)
    };
    let first = FileId { seq: 0, ..APPEND_9 };
    let put = seen(&|tables| tables.put(7, b"k", b"v", first));
    assert_eq!(put, (None, Some(0), None));
    let appended = seen(&|tables| tables.append(7, &entries_in_file(Queue::Append, 0, 0..2)));
    assert_eq!(appended, (Some(0), Some(0), None));
    let moved = entries_in_file(Queue::Rewrite, 0, 0..2);
    let rewritten = seen(&|tables| tables.rewrite(7, &moved, Some(0)));
    assert_eq!(rewritten, (Some(0), Some(0), Some(0)));
    let all_moved = seen(&|tables| tables.rewrite_key(7, b"k", Some(0), 0));
    assert_eq!(all_moved, (Some(0), None, Some(0)));
}

#[test]
fn keys_are_listed_up_to_a_gate() {
    let mut tables = Tables::new().unwrap();
    let places = [
        (b"a", Queue::Append, 3),
        (b"b", Queue::Append, 5),
        (b"c", Queue::Rewrite, 2),
    ];
    for (key, queue, seq) in places {
        tables.put(7, key, b"v", FileId { queue, seq }).unwrap();
    }
    let pairs = places.map(|(key, ..)| Pair {
        key: key.to_vec(),
        value: b"v".to_vec(),
    });
    for (gate, count) in [(0, 0), (2, 0), (3, 1), (4, 1), (5, 2), (u64::MAX, 2)] {
        let before = tables.pairs_before(7, gate).unwrap();
        assert_eq!(before, pairs[..count], "{gate}");
    }
    assert_eq!(tables.rewritten_pairs(7).unwrap(), pairs[2..]);
    assert_eq!(tables.pairs(7).unwrap(), pairs);
    let summary = tables.summary(7).unwrap();
    assert_eq!(
        (summary.append_seq, summary.rewrite_seq),
        (Some(3), Some(2))
    );
}

#[test]
fn a_rewritten_batch_moves_what_is_in_files_up_to_the_gate() {
    let mut tables = Tables::new().unwrap();
    tables
        .append(7, &entries_in_file(Queue::Append, 9, 10..12))
        .unwrap();
    tables
        .append(7, &entries_in_file(Queue::Append, 10, 12..13))
        .unwrap();
    tables.put(7, b"k", b"v", APPEND_9).unwrap();
    let rewritten = FileId {
        queue: Queue::Rewrite,
        seq: 2,
    };
    let mut batch = LogBatch::new().unwrap();
    batch
        .add_entries(7, 10, &["one", "three", "eleven"])
        .unwrap();
    batch.put(7, b"k", b"v").unwrap();
    batch.finish().unwrap();
    let queue = rewritten.queue;
    batch
        .sign(LogFile {
            queue,
            ..append_file(2)
        })
        .unwrap();
    batch.written(rewritten, 0).unwrap();
    let items = batch.into_items().unwrap();
    tables.apply_rewrite(items, Some(9), 2).unwrap();
    let moved = tables.rewritten_entries(7).unwrap();
    let places = moved.iter().map(|e| (e.index, e.block.file, e.len));
    assert_eq!(
        places.collect::<Vec<_>>(),
        [(10, rewritten, 3), (11, rewritten, 5)]
    );
    let summary = tables.summary(7).unwrap();
    assert_eq!(
        (summary.append_seq, summary.rewrite_seq),
        (Some(10), Some(2))
    );
    assert_eq!(
        (tables.live(Queue::Append), tables.live(Queue::Rewrite)),
        (1, 3)
    );
}

#[test]
fn the_least_rewritten_file_is_that_of_the_atomic_group() {
    let mut tables = Tables::new().unwrap();
    tables
        .append(7, &entries_in_file(Queue::Append, 9, 10..12))
        .unwrap();
    tables
        .rewrite(7, &entries_in_file(Queue::Rewrite, 5, 10..12), Some(9))
        .unwrap();
    // a group may be in one file alone, and counts where the least file isn't behind it
    for (start, end, least) in [(4, 4, 5), (3, 5, 3)] {
        tables.set_atomic_group(7, start, end).unwrap();
        assert_eq!(tables.summary(7).unwrap().rewrite_seq, Some(least));
    }
    let e = tables.set_atomic_group(7, 6, 5).unwrap_err();
    assert_eq!(e.kind, ErrorKind::InvalidArgument);
}

#[test]
fn regions_are_removed_and_listed() {
    let mut tables = Tables::new().unwrap();
    for region in [5, 1, 300, 2] {
        tables
            .append(region, &entries_in_file(Queue::Append, 9, 1..3))
            .unwrap();
    }
    assert_eq!(tables.regions().unwrap(), [1, 2, 5, 300]);
    assert!(tables.remove(5, true).unwrap());
    assert!(!tables.remove(4, true).unwrap());
    assert!(tables.remove(1, false).unwrap());
    assert_eq!(tables.regions().unwrap(), [2, 300]);
    assert_eq!(tables.cleaned(), [5, 4]);
    assert_eq!(tables.live(Queue::Append), 4);
}

#[test]
fn newer_tables_are_merged_into_older_ones_and_a_hole_is_refused() {
    let mut older = Tables::new().unwrap();
    older
        .append(7, &entries_in_file(Queue::Append, 9, 10..20))
        .unwrap();
    let mut newer = Tables::new().unwrap();
    newer
        .append(7, &entries_in_file(Queue::Append, 10, 15..17))
        .unwrap();
    newer
        .append(8, &entries_in_file(Queue::Append, 10, 1..2))
        .unwrap();
    older.merge_newer(newer).unwrap();
    assert_eq!(older.summary(7).unwrap().entries, 7);
    assert_eq!(older.regions().unwrap(), [7, 8]);
    let mut hole = Tables::new().unwrap();
    hole.append(7, &entries_in_file(Queue::Append, 11, 40..41))
        .unwrap();
    let e = older.merge_newer(hole).unwrap_err();
    assert_eq!(e.kind, ErrorKind::Corruption, "{e}");
    assert_eq!(older.summary(7).unwrap().entries, 7);
}

/// Makes tables with runs of entries, each given as its region and its indexes. They have moved from file 1 of the append queue to
/// file 2 of the rewrite queue, where region 7 also has a key.
fn rewritten_tables(runs: &[(u64, std::ops::Range<u64>)]) -> Tables {
    let mut tables = Tables::new().unwrap();
    for (region, range) in runs {
        let old = entries_in_file(Queue::Append, 1, range.clone());
        tables.append(*region, &old).unwrap();
        let moved = entries_in_file(Queue::Rewrite, 2, range.clone());
        tables.rewrite(*region, &moved, Some(1)).unwrap();
    }
    let file = FileId {
        queue: Queue::Rewrite,
        seq: 2,
    };
    tables.put(7, b"k", b"old", file).unwrap();
    tables
}

#[test]
fn appended_tables_are_merged_into_rewritten_ones() {
    let mut tables = rewritten_tables(&[(6, 1..3), (7, 10..14), (8, 1..3)]);
    let mut appended = Tables::new().unwrap();
    for (region, range) in [(5, 1..2), (6, 9..11), (7, 12..16)] {
        let new = entries_in_file(Queue::Append, 9, range);
        appended.append(region, &new).unwrap();
    }
    appended.put(7, b"k", b"new", APPEND_9).unwrap();
    tables.merge_append(appended).unwrap();
    // behind a hole nothing of the rewritten entries stays
    assert_eq!(
        tables.to_string(),
        "5 entries 1..2 keys 0 append 9 rewrite -\n\
         6 entries 9..11 keys 0 append 9 rewrite -\n\
         7 entries 10..16 keys 1 append 9 rewrite 2\n\
         8 entries 1..3 keys 0 append - rewrite 2\n\
         cleaned -\nlive 8 4\n"
    );
    assert_eq!(tables.value(7, b"k").unwrap(), b"new");
    let e = tables.merge_append(rewritten_tables(&[])).unwrap_err();
    assert_eq!(e.kind, ErrorKind::InvalidArgument, "{e}");
}

#[test]
fn the_items_of_all_batches_give_the_recovered_tables() {
    let files = demo_files();
    let mut tables = Tables::new().unwrap();
    for part in append_parts(&files) {
        for batch in Batches::new(part).unwrap() {
            tables.apply_append(batch.unwrap()).unwrap();
        }
    }
    assert_eq!(tables.to_string(), readme_lines());
    let recovered = recover(&append_parts(&files), Queue::Append, 2).unwrap();
    for region in recovered.regions().unwrap() {
        let Some(summary) = recovered.summary(region) else {
            panic!("{region}");
        };
        assert_eq!(tables.summary(region), Some(summary));
        if let Some(first) = summary.first_index {
            let range = first..first + summary.entries as u64;
            assert_eq!(
                tables.entries(region, range.clone(), None),
                recovered.entries(region, range, None)
            );
        }
    }
}

#[test]
fn a_batch_of_the_append_queue_is_refused_as_a_rewriting() {
    let files = demo_files();
    let batch = Batches::new(append_parts(&files)[0])
        .unwrap()
        .map(Result::unwrap)
        .find(|batch| {
            batch
                .iter()
                .any(|item| matches!(item.content, Content::Entries(_)))
        })
        .unwrap();
    let mut tables = Tables::new().unwrap();
    let e = tables.apply_rewrite(batch, Some(9), 1).unwrap_err();
    assert_eq!(e.kind, ErrorKind::Corruption, "{e}");
}

#[test]
fn the_checksum_is_that_of_zip_files() {
    assert_eq!(crc32(b"123456789"), 0xCBF4_3926);
    assert_eq!(crc32(b""), 0);
}
