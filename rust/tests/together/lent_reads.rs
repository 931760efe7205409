//! Tests that entries and pairs are lent, not copied.

use crate::common::engines::{new_engine, write_batch};
use raft_recover::{Engine, ErrorKind, MemoryFiles};

/// Opens an engine whose region 7 has the entries 2 to 7: in two blocks of the rewrite queue, and in two of the append queue, the
/// last of which has no bytes.
fn engine_of_four_blocks() -> Engine<MemoryFiles> {
    let engine = new_engine();
    write_batch(&engine, |batch| batch.add_entries(7, 1, &["1", "22"]));
    write_batch(&engine, |batch| batch.add_entries(7, 3, &["333"]));
    engine.rotate().unwrap();
    engine.rewrite(1).unwrap();
    write_batch(&engine, |batch| {
        batch.add_entries(7, 4, &["4444", "5", "66"])
    });
    write_batch(&engine, |batch| batch.add_entries(7, 7, &[""]));
    write_batch(&engine, |batch| batch.compact(7, 2));
    engine
}

/// The texts of the entries 2 to 7 of `engine_of_four_blocks`.
const TEXTS: [&str; 6] = ["22", "333", "4444", "5", "66", ""];

/// Tests whether two byte strings follow one another in memory, so that neither was copied.
fn are_neighbors(one: &[u8], other: &[u8]) -> bool {
    one.as_ptr_range().end == other.as_ptr()
}

#[test]
fn entries_are_lent_in_order_with_their_indexes() {
    let engine = engine_of_four_blocks();
    let mut lent = Vec::new();
    engine
        .for_each_entry(7, .., |index, bytes| lent.push((index, bytes.to_vec())))
        .unwrap();
    let expected = (2..).zip(TEXTS.map(|text| text.as_bytes().to_vec()));
    assert_eq!(lent, expected.collect::<Vec<_>>());

    let mut lent = Vec::new();
    engine
        .for_each_entry(7, 3..=5, |index, _| lent.push(index))
        .unwrap();
    engine
        .for_each_entry(7, 3..3, |index, _| lent.push(index))
        .unwrap();
    engine
        .for_each_entry(8, .., |index, _| lent.push(index))
        .unwrap();
    for range in [1..4, 6..9] {
        let refused = engine.for_each_entry(7, range, |index, _| lent.push(index));
        let kind = refused.unwrap_err().kind;
        assert!(matches!(
            kind,
            ErrorKind::EntryCompacted | ErrorKind::EntryNotFound
        ));
    }
    assert_eq!(lent, [3, 4, 5]);
}

#[test]
fn a_single_entry_is_lent_where_there_is_one() {
    let engine = engine_of_four_blocks();
    for (index, text) in (2..).zip(TEXTS) {
        let is_equal = engine.entry_with(7, index, |bytes| bytes == text.as_bytes());
        assert_eq!(is_equal.unwrap(), Some(true), "{index}");
    }
    for index in [0, 1, 8, u64::MAX] {
        let none = engine.entry_with(7, index, |_| panic!("entry {index}"));
        assert_eq!(none.unwrap(), None::<()>);
    }
    assert_eq!(engine.entry_with(9, 2, |_| ()).unwrap(), None);
}

#[test]
fn read_entries_are_lent_from_both_ends() {
    let mut entries = engine_of_four_blocks().entries(7, ..).unwrap();
    let indexes = |from_the_end: bool| -> Vec<u64> {
        let lent = entries.iter().map(|(index, _)| index);
        if from_the_end {
            lent.rev().collect()
        } else {
            lent.collect()
        }
    };
    assert_eq!(indexes(false), [2, 3, 4, 5, 6, 7]);
    assert_eq!(indexes(true), [7, 6, 5, 4, 3, 2]);
    assert_eq!(entries.iter().len(), 6);
    let long = entries.iter().rev().find(|(_, bytes)| bytes.len() > 2);
    assert_eq!(long, Some((4, &b"4444"[..])));

    assert_eq!(entries.next().unwrap(), b"22");
    assert_eq!(entries.next_back().unwrap(), b"");
    let left: Vec<_> = entries.iter().collect();
    assert_eq!(left.len(), 4);
    assert_eq!((left[0], left[3]), ((3, &b"333"[..]), (6, &b"66"[..])));
    assert!(are_neighbors(left[1].1, left[2].1));
    assert!(are_neighbors(left[2].1, left[3].1));
}

#[test]
fn scanned_pairs_are_lent_from_both_ends() {
    let engine = new_engine();
    write_batch(&engine, |batch| {
        for key in ["a", "bb", "c", "d"] {
            batch.put(7, key.as_bytes(), key.to_uppercase().as_bytes())?;
        }
        batch.put(7, b"e", b"")
    });
    let mut pairs = engine.scan(7, &b"b"[..]..).unwrap();
    let keys: Vec<_> = pairs.iter().map(|(key, _)| key).collect();
    assert_eq!(keys, [&b"bb"[..], b"c", b"d", b"e"]);
    let found = pairs.iter().rev().find(|(_, value)| *value < &b"D"[..]);
    assert_eq!(found, Some((&b"e"[..], &b""[..])));
    let found = pairs.iter().rev().find(|(key, _)| *key < &b"d"[..]);
    assert_eq!(found, Some((&b"c"[..], &b"C"[..])));
    let lent: Vec<_> = pairs.iter().flat_map(|(key, value)| [key, value]).collect();
    assert!(lent.windows(2).all(|pair| are_neighbors(pair[0], pair[1])));

    assert_eq!(pairs.next(), Some((b"bb".to_vec(), b"BB".to_vec())));
    assert_eq!(pairs.next_back(), Some((b"e".to_vec(), vec![])));
    assert_eq!((pairs.iter().len(), pairs.len()), (2, 2));
    assert_eq!(pairs.iter().next(), Some((&b"c"[..], &b"C"[..])));
}
