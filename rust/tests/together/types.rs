//! Checks types as they compile: which threads may have them, and which traits of std they have.

use raft_recover::{
    Ask, Batch, BatchIntoIter, BatchIter, Batches, Block, Content, Context, Engine, Entries, Entry,
    Error, ErrorKind, FileId, FilePart, Files, FolderFiles, Holder, Item, Kept, Listener, LogBatch,
    LogFile, MemoryFiles, Message, Options, Pair, Pairs, Purged, Queue, QueueStats, QueueUsage,
    RecoveryMode, Slot, Stage, Stats, Summary, Tables, Unsynced, Usage, Version,
};
use std::collections::{BTreeSet, HashSet};
use std::fmt::{Debug, Display};
use std::hash::Hash;
use std::iter::FusedIterator;
use std::sync::Arc;

/// Compiles only if the types have the traits.
macro_rules! all_are {
    ($($traits:path),+ => $($type:ty),+ $(,)?) => {
        const _: () = {
            const fn are<T: $($traits +)+>() {}
            $(are::<$type>();)+
        };
    };
}

/// Compiles only if the types lack the trait. With it, two implementations of `Fits` would fit.
macro_rules! none_is {
    ($trait:path => $($type:ty),+ $(,)?) => {
        const _: () = {
            struct Any;
            struct Having;
            trait Fits<A> {
                const ONE: () = ();
            }
            impl<T> Fits<Any> for T {}
            impl<T: $trait> Fits<Having> for T {}
            $(let _: () = <$type as Fits<_>>::ONE;)+
        };
    };
}

all_are!(Send, Debug, Unpin => Batch, BatchIntoIter, Context, LogBatch, Slot, Tables);
none_is!(Sync => Batch, BatchIntoIter, Context, LogBatch, Slot, Tables);
none_is!(Clone => Batch, BatchIntoIter, Context, LogBatch, Slot, Tables);
none_is!(Send => BatchIter<'static>);
none_is!(Sync => BatchIter<'static>);

all_are!(
    Send, Sync, Debug, Unpin =>
    Engine, Engine<MemoryFiles>, Engine<Arc<MemoryFiles>>, FolderFiles,
);
none_is!(Clone => Engine, Engine<MemoryFiles>, FolderFiles);
all_are!(Files => FolderFiles, MemoryFiles, Arc<MemoryFiles>, Arc<dyn Files>);
all_are!(Send, Sync, Debug, Clone, Default, Unpin => Entries, MemoryFiles, Options, Pairs, Purged, Stats);
all_are!(
    Send, Sync, Debug, Clone, PartialEq, Eq, Hash, Unpin =>
    Ask, Options, Purged, QueueStats, Stats, Unsynced,
    Block, Content, Entry, Error, ErrorKind, FileId, FilePart<'static>, Item, Kept, LogFile, Pair,
    Queue, RecoveryMode, Stage, Summary, Version,
);
all_are!(
    Copy => Block, Entry, ErrorKind, FileId, FilePart<'static>, Kept, LogFile, Queue, Stage,
    Summary, Version,
);
all_are!(Ord => FileId, LogFile, Queue, Stage, Version);
all_are!(Display => Error, ErrorKind, FileId, Queue, Tables, Version);
all_are!(TryFrom<u8> => ErrorKind, Queue, Version);
all_are!(std::error::Error => Error);
all_are!(Iterator, FusedIterator, Debug => BatchIter<'static>, BatchIntoIter, Batches<'static>);
all_are!(Iterator, FusedIterator, ExactSizeIterator, DoubleEndedIterator => Entries, Pairs);
all_are!(ExactSizeIterator, DoubleEndedIterator => BatchIter<'static>, BatchIntoIter);
all_are!(Copy, Default => QueueStats, QueueUsage, Stats, Summary, Unsynced, Usage);
all_are!(Send, Sync, Debug, Clone, PartialEq, Eq, Hash => Holder, QueueUsage, Usage);
all_are!(Default => Purged);
all_are!(Copy => Holder);
all_are!(Message => String, Vec<u8>);
all_are!(Send, Sync => Arc<dyn Listener>);
all_are!(Send, Sync, Clone => Batches<'static>);

#[test]
fn queues_are_converted_from_words_and_numbers() {
    for (number, queue, word) in [(0, Queue::Append, "append"), (1, Queue::Rewrite, "rewrite")] {
        assert_eq!(Queue::try_from(number), Ok(queue));
        assert_eq!(word.parse(), Ok(queue));
        assert_eq!(queue.to_string(), word);
        assert_eq!(format!("{queue:>8}|"), format!("{word:>8}|"));
    }
    for number in 2..=u8::MAX {
        let e = Queue::try_from(number).unwrap_err();
        assert_eq!(e.kind, ErrorKind::InvalidArgument);
    }
    for word in ["", "Append", "append ", "0"] {
        let e = word.parse::<Queue>().unwrap_err();
        assert_eq!(e.kind, ErrorKind::InvalidArgument, "{word}");
    }
}

#[test]
fn versions_are_converted_from_numbers() {
    for (number, version, text) in [(1, Version::V1, "V1"), (2, Version::V2, "V2")] {
        assert_eq!(Version::try_from(number), Ok(version));
        assert_eq!(version.to_string(), text);
    }
    for number in (0..=u8::MAX).filter(|n| ![1, 2].contains(n)) {
        let e = Version::try_from(number).unwrap_err();
        assert_eq!(e.kind, ErrorKind::InvalidArgument);
    }
}

#[test]
fn a_file_is_shown_by_its_queue_and_number() {
    let file = LogFile::new(Queue::Rewrite, 12, Version::V1);
    let expected = LogFile {
        queue: Queue::Rewrite,
        seq: 12,
        version: Version::V1,
    };
    assert_eq!(file, expected);
    assert_eq!(FileId::from(file).to_string(), "rewrite file 12");
}

#[test]
fn files_are_ordered_by_queue_and_number() {
    let files = [(1, Queue::Rewrite), (2, Queue::Append), (1, Queue::Append)];
    let in_order: BTreeSet<_> = files.map(|(seq, queue)| FileId::new(queue, seq)).into();
    let texts: Vec<_> = in_order.iter().map(FileId::to_string).collect();
    assert_eq!(texts, ["append file 1", "append file 2", "rewrite file 1"]);
}

#[test]
fn each_kind_of_error_has_words_of_its_own() {
    let kinds = (1..=12).map(|number| ErrorKind::try_from(number).unwrap());
    let words: HashSet<_> = kinds.map(|kind| kind.to_string()).collect();
    assert_eq!(words.len(), 12);
    for number in [0, 13, u8::MAX] {
        let e = ErrorKind::try_from(number).unwrap_err();
        assert_eq!(e.kind, ErrorKind::InvalidArgument);
    }
}

#[test]
fn errors_of_one_kind_with_other_words_are_not_equal() {
    let no_slot = || Slot::new(128).unwrap_err();
    let no_queue = Queue::try_from(2).unwrap_err();
    assert_eq!(no_slot(), no_slot());
    assert_eq!(no_slot().kind, no_queue.kind);
    assert_ne!(no_slot(), no_queue);
}

#[test]
fn errors_are_the_same_where_kind_words_and_place_are() {
    let with_source = FolderFiles::open("/no/folder").unwrap_err();
    let mut same = Queue::try_from(2).unwrap_err();
    (same.kind, same.text) = (with_source.kind, with_source.text.clone());
    let has_source = |e: &Error| std::error::Error::source(e).is_some();
    assert!(has_source(&with_source) && !has_source(&same));
    assert_eq!(with_source, same);
    let mut others = [(); 4].map(|()| same.clone());
    others[0].kind = ErrorKind::Other;
    others[1].text.push('.');
    others[2].file = Some(FileId::new(Queue::Append, 1));
    others[3].offset = Some(0);
    for other in &others {
        assert_ne!(*other, same);
    }
    let all: HashSet<_> = others.into_iter().chain([with_source, same]).collect();
    assert_eq!(all.len(), 5);
}

#[test]
fn a_part_begins_at_offset_0_and_is_shown_without_its_bytes() {
    let bytes = vec![7; 1 << 20];
    let part = FilePart::new(LogFile::new(Queue::Append, 3, Version::V2), &bytes);
    assert_eq!((part.offset, part.bytes.len()), (0, 1 << 20));
    let shown = format!("{part:?}");
    assert!(
        shown.contains("len: 1048576") && shown.len() < 200,
        "{shown}"
    );
    let same = FilePart {
        bytes: &vec![7; 1 << 20],
        ..part
    };
    assert_eq!(part, same);
}

#[test]
fn types_of_the_library_are_shown_without_pointers() {
    let mut batch = LogBatch::new().unwrap();
    batch.clean(7).unwrap();
    let shown = [
        format!("{:?}", Tables::new().unwrap()),
        format!("{:?}", Slot::new(5).unwrap()),
        format!("{:?}", Context::new().unwrap()),
        format!("{batch:?}"),
        format!("{:?}", batch.into_items().unwrap()),
    ];
    let expected = [
        "Tables { live_append: 0, live_rewrite: 0, .. }",
        "Slot { number: 5, live_append: 0, live_rewrite: 0, .. }",
        "Context { is_failed: false, .. }",
        "LogBatch { stage: Open, ",
        "Batch { len: 1, .. }",
    ];
    for (shown, expected) in shown.iter().zip(expected) {
        assert!(shown.starts_with(expected), "{shown}");
        assert!(!shown.contains("0x"), "{shown}");
    }
}

#[test]
fn the_items_of_a_batch_are_read_from_both_ends() {
    let batch = || {
        let mut batch = LogBatch::new().unwrap();
        for region in 1..=4 {
            batch.clean(region).unwrap();
        }
        batch.into_items().unwrap()
    };
    let lent = batch();
    let mut items = lent.iter();
    assert_eq!(items.len(), 4);
    assert_eq!(items.next().unwrap().region, 1);
    assert_eq!(items.next_back().unwrap().region, 4);
    assert_eq!(items.len(), 2);
    let rest: Vec<_> = items.clone().rev().map(|item| item.region).collect();
    assert_eq!(rest, [3, 2]);
    assert_eq!(items.map(|item| item.region).collect::<Vec<_>>(), [2, 3]);
    let mut regions = Vec::new();
    for item in &lent {
        regions.push(item.region);
    }
    for item in batch() {
        regions.push(item.region);
    }
    assert_eq!(regions, [1, 2, 3, 4, 1, 2, 3, 4]);
    let mut given = batch().into_iter();
    assert_eq!(given.nth(1).unwrap().region, 2);
    assert_eq!(given.next_back().unwrap().region, 4);
    assert_eq!((given.len(), given.next().unwrap().region), (1, 3));
    assert_eq!((given.next(), given.next_back()), (None, None));
}

#[test]
fn the_files_of_several_purges_add_up() {
    let purged = |append_files, rewrite_files| {
        let mut purged = Purged::default();
        (purged.append_files, purged.rewrite_files) = (append_files, rewrite_files);
        purged
    };
    let mut all = purged(1, 20);
    all += purged(300, 4000);
    assert_eq!(all, purged(301, 4020));
}
