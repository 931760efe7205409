//! Bytes that are to be written and aren't in their file yet, so that they are read from memory.

use super::locks;
use super::numbers::Numbers;
use crate::sys::Order;
use crate::{FileId, Queue};
use std::collections::VecDeque;
use std::sync::{Arc, RwLock};

/// The bytes of all orders to write that aren't carried out yet, oldest first. They stay where the files have failed.
#[derive(Debug, Default)]
pub(super) struct Unwritten(RwLock<VecDeque<UnwrittenBytes>>);

/// The bytes of one order, which are to stand in a file from an offset on.
#[derive(Debug)]
struct UnwrittenBytes {
    file: FileId,
    offset: u64,
    bytes: Arc<Vec<u8>>,
}

impl Unwritten {
    /// Adds the bytes that `orders` write. `numbers` has the lengths of the files at which these orders begin, so it tells where
    /// the bytes will stand.
    pub(super) fn note_orders(&self, orders: &[Order], numbers: &Numbers) {
        let mut ends = [Queue::Append, Queue::Rewrite].map(|queue| numbers.last_file(queue));
        let mut pieces = locks::lock_to_change(&self.0);
        for order in orders {
            match order {
                Order::Begin(file) => ends[file.queue as usize] = Some((*file, 0)),
                Order::Write(queue, bytes) => {
                    if let Some((file, end)) = &mut ends[*queue as usize] {
                        let (offset, bytes) = (*end, bytes.clone());
                        *end += bytes.len() as u64;
                        pieces.push_back(UnwrittenBytes {
                            file: *file,
                            offset,
                            bytes,
                        });
                    }
                }
                Order::Cut(queue, len) => {
                    if let Some((_, end)) = &mut ends[*queue as usize] {
                        *end = (*end).min(*len);
                    }
                }
                Order::Sync(_) | Order::DeleteOldest(_) => {}
            }
        }
    }

    /// Drops the bytes of the oldest order: they are in their file now.
    pub(super) fn forget_oldest(&self) {
        locks::lock_to_change(&self.0).pop_front();
    }

    /// Fills `bytes` with those that are to be written to a file from `offset` on, if a single order writes all of them. Returns
    /// whether one does; else `bytes` stay as they are.
    pub(super) fn try_read_into(&self, file: FileId, offset: u64, bytes: &mut [u8]) -> bool {
        let pieces = locks::lock_to_read(&self.0);
        let found = pieces.iter().find_map(|piece| {
            let from = offset.checked_sub(piece.offset)?;
            let from = usize::try_from(from).ok()?;
            let rest = piece.bytes.get(from..)?.get(..bytes.len())?;
            (piece.file == file).then_some(rest)
        });
        if let Some(found) = found {
            bytes.copy_from_slice(found);
        }
        found.is_some()
    }
}
