//! Tests that the last block of each reading is kept, up to sixteen blocks and 8 MiB in all, so that their other entries cost
//! no read.

use crate::common::engines::{new_engine, write_batch};
use crate::common::hooked::{Call, HookedFiles};
use raft_recover::{Engine, ErrorKind, Files, MemoryFiles, Options, Queue};
use std::sync::Arc;
use std::sync::atomic::{AtomicUsize, Ordering::SeqCst};

/// Runs a test over a new engine. The test also gets a call that returns how often a block was read since the last call of it.
fn run_with_read_count(test: impl FnOnce(&Engine<Arc<dyn Files>>, &dyn Fn() -> usize)) {
    let reads = Arc::new(AtomicUsize::new(0));
    let counted = reads.clone();
    let hooked = HookedFiles::new(&MemoryFiles::new(), move |call: Call<'_>| {
        counted.fetch_add(usize::from(!call.is_change()), SeqCst);
        Ok(())
    });
    let files: Arc<dyn Files> = Arc::new(hooked);
    let engine = Engine::with_files(files, Options::new()).unwrap();
    test(&engine, &|| reads.swap(0, SeqCst));
}

/// Returns the texts of a hundred entries, those of the indexes from `first` on.
fn hundred_texts(first: u64) -> Vec<String> {
    (first..first + 100)
        .map(|index| index.to_string())
        .collect()
}

#[test]
fn the_entries_of_a_block_cost_one_read() {
    run_with_read_count(|engine, reads| {
        for first in [1, 101, 201] {
            write_batch(engine, |batch| {
                batch.add_entries(7, first, &hundred_texts(first))
            });
        }
        for index in 1..=300 {
            let text = index.to_string().into_bytes();
            assert_eq!(engine.entry(7, index).unwrap(), Some(text));
        }
        assert_eq!(reads(), 3);
        for index in (1..=300).rev() {
            let is_equal = |bytes: &[u8]| bytes == index.to_string().as_bytes();
            assert_eq!(engine.entry_with(7, index, is_equal).unwrap(), Some(true));
        }
        assert_eq!(reads(), 0);
    });
}

#[test]
fn ranges_that_follow_one_another_read_each_block_once() {
    run_with_read_count(|engine, reads| {
        for first in (1..=2901).step_by(100) {
            write_batch(engine, |batch| {
                batch.add_entries(7, first, &hundred_texts(first))
            });
        }
        let mut read = Vec::new();
        for first in (1..=2990).step_by(30) {
            read.extend(engine.entries(7, first..first + 30).unwrap());
        }
        assert_eq!(read.len(), 3000);
        assert_eq!(reads(), 30);
        assert_eq!(engine.entries(7, ..).unwrap().len(), 3000);
        assert!(
            (30 - 16..30).contains(&reads()),
            "of a reading the last block alone is kept"
        );
    });
}

#[test]
fn at_most_sixteen_blocks_and_eight_mebibytes_are_kept() {
    run_with_read_count(|engine, reads| {
        for region in 0..20 {
            write_batch(engine, |batch| {
                batch.add_entries(region, 1, &hundred_texts(1))
            });
        }
        let read_all = |regions: std::ops::Range<u64>| {
            regions.for_each(|region| drop(engine.entry(region, 1).unwrap().unwrap()));
        };
        read_all(0..16);
        read_all(0..16);
        assert_eq!(reads(), 16);
        read_all(16..17); // in place of the block of region 0
        read_all(1..17);
        assert_eq!(reads(), 1);
        read_all(0..1);
        assert_eq!(reads(), 1);
        read_all(2..3); // it was read longest ago, and isn't any more
        read_all(17..18); // in place of the block of region 3
        reads();
        read_all(2..3);
        assert_eq!(reads(), 0);
        read_all(3..4);
        assert_eq!(reads(), 1);

        for region in 30..35 {
            write_batch(engine, |batch| {
                batch.add_entries(region, 1, &[vec![7; 3 << 20]])
            });
        }
        read_all(30..32);
        read_all(30..32);
        assert_eq!(reads(), 2);
        read_all(32..33); // in place of the block of region 30
        read_all(31..33);
        assert_eq!(reads(), 1);
        read_all(30..31);
        assert_eq!(reads(), 1);

        write_batch(engine, |batch| {
            batch.add_entries(40, 1, &[vec![7; 9 << 20]])
        });
        read_all(30..31);
        reads();
        read_all(40..41);
        read_all(40..41);
        assert_eq!(reads(), 2);
        read_all(30..31); // what is too large takes nobody's place
        assert_eq!(reads(), 0);
    });
}

#[test]
fn an_entry_that_moved_or_was_replaced_is_read_at_its_new_place() {
    run_with_read_count(|engine, reads| {
        write_batch(engine, |batch| batch.add_entries(7, 1, &hundred_texts(1)));
        assert_eq!(engine.entry(7, 1).unwrap().unwrap(), b"1");
        engine.rotate().unwrap();
        engine.rewrite(1).unwrap();
        engine.purge().unwrap();
        reads();
        assert_eq!(engine.entry(7, 2).unwrap().unwrap(), b"2");
        assert_eq!(reads(), 1);
        write_batch(engine, |batch| batch.add_entries(7, 2, &["another 2"]));
        assert_eq!(engine.entry(7, 2).unwrap().unwrap(), b"another 2");
        assert_eq!(engine.entry(7, 1).unwrap().unwrap(), b"1");
        assert_eq!(reads(), 1);
    });
}

#[test]
fn a_damaged_block_isnt_kept() {
    let engine = new_engine();
    write_batch(&engine, |batch| {
        batch.add_entries(7, 1, &["damaged", "too"])
    });
    let mut files = engine.files().files(Queue::Append);
    let at = files[0].1.windows(7).position(|bytes| bytes == b"damaged");
    files[0].1[at.unwrap()] ^= 1;
    files.push((2, vec![]));
    let found = MemoryFiles::found(files, vec![]);
    let engine = Engine::with_files(found, Options::new()).unwrap();
    for index in [1, 2, 1] {
        let e = engine.entry(7, index).unwrap_err();
        assert_eq!(e.kind, ErrorKind::Corruption);
    }
}
