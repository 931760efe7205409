//! Structs of numbers that are passed to the library and back.

use crate::{Block, Entry, FileId, LogFile, Queue, Summary, Version};

/// A log file as the library takes it.
#[repr(C)]
#[derive(Clone, Copy)]
pub(super) struct File {
    pub(super) seq: u64,
    pub(super) is_rewrite: bool,
    pub(super) is_signed: bool,
}

/// A number, or none, as the library takes and fills it in.
#[repr(C)]
#[derive(Clone, Copy, Default)]
pub(super) struct Maybe {
    pub(super) is_some: bool,
    pub(super) number: u64,
}

/// A [`Summary`] as the library fills it in.
#[repr(C)]
#[derive(Clone, Copy, Default)]
pub(super) struct SummaryNumbers {
    pub(super) entries: usize,
    pub(super) keys: usize,
    pub(super) first: Maybe,
    pub(super) append_seq: Maybe,
    pub(super) rewrite_seq: Maybe,
}

/// An [`Entry`] as the library takes and fills it in.
#[repr(C)]
#[derive(Clone, Copy, Default)]
pub(super) struct EntryNumbers {
    pub(super) index: u64,
    pub(super) seq: u64,
    pub(super) offset: u64,
    pub(super) len: usize,
    pub(super) entry_offset: u32,
    pub(super) entry_len: u32,
    pub(super) is_rewrite: bool,
    pub(super) is_placed: bool,
}

impl From<LogFile> for File {
    /// Makes the file as the library takes it: checksums are signed in version 2.
    fn from(file: LogFile) -> File {
        File {
            seq: file.seq,
            is_rewrite: file.queue == Queue::Rewrite,
            is_signed: file.version == Version::V2,
        }
    }
}

impl From<Option<u64>> for Maybe {
    /// Makes the number as the library takes it; it is 0 where there is none.
    fn from(number: Option<u64>) -> Maybe {
        Maybe {
            is_some: number.is_some(),
            number: number.unwrap_or_default(),
        }
    }
}

impl Maybe {
    /// Returns the number; `None` where there is none.
    pub(super) fn number(self) -> Option<u64> {
        self.is_some.then_some(self.number)
    }
}

impl From<SummaryNumbers> for Summary {
    /// Makes the summary that the library has filled in.
    fn from(summary: SummaryNumbers) -> Summary {
        Summary {
            entries: summary.entries,
            keys: summary.keys,
            first_index: summary.first.number(),
            append_seq: summary.append_seq.number(),
            rewrite_seq: summary.rewrite_seq.number(),
        }
    }
}

impl From<&Entry> for EntryNumbers {
    /// Makes the entry as the library takes it. It has a place.
    fn from(entry: &Entry) -> EntryNumbers {
        EntryNumbers {
            index: entry.index,
            seq: entry.block.file.seq,
            offset: entry.block.offset,
            len: entry.block.len,
            entry_offset: entry.offset,
            entry_len: entry.len,
            is_rewrite: entry.block.file.queue == Queue::Rewrite,
            is_placed: true,
        }
    }
}

impl From<EntryNumbers> for Entry {
    /// Makes the entry that the library has filled in. It panics where the entry has no place; those of tables, of read
    /// batches and of written ones have one.
    fn from(entry: EntryNumbers) -> Entry {
        assert!(entry.is_placed, "entry {} has no place", entry.index);
        let queue = if entry.is_rewrite {
            Queue::Rewrite
        } else {
            Queue::Append
        };
        Entry {
            index: entry.index,
            block: Block {
                file: FileId {
                    queue,
                    seq: entry.seq,
                },
                offset: entry.offset,
                len: entry.len,
            },
            offset: entry.entry_offset,
            len: entry.entry_len,
        }
    }
}

/// Makes of each entry the numbers that the library takes, in the same order.
pub(super) fn to_entry_numbers(entries: &[Entry]) -> Vec<EntryNumbers> {
    entries.iter().map(EntryNumbers::from).collect()
}

/// Makes the entries that the library has filled in, in the same order. It panics where one has no place.
pub(super) fn to_entries(numbers: Vec<EntryNumbers>) -> Vec<Entry> {
    numbers.into_iter().map(Entry::from).collect()
}
