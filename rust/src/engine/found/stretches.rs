//! Collects the stretches of a queue that threads have read, and merges neighbors.

use crate::engine::locks;
use crate::sys::ReaderHandle;
use crate::{Error, Queue, Result};
use std::collections::BTreeMap;
use std::sync::{Mutex, PoisonError};

/// The position of a piece in a queue.
#[derive(Clone, Copy, PartialEq, Eq, PartialOrd, Ord, Debug)]
pub(super) struct Position {
    /// Which file it is in, from 0 on.
    pub(super) file: usize,
    /// Which piece of that file it is, from 0 on.
    pub(super) piece: usize,
}

/// A run of neighboring pieces, and what was read of them.
pub(super) struct Stretch {
    /// The position of the first piece.
    pub(super) from: Position,
    /// The position of the piece behind the last one; `None` where the reading of the queue ends within the last one.
    pub(super) to: Option<Position>,
    /// The reader that has read the pieces.
    pub(super) reader: ReaderHandle,
}

/// How the reading of a queue ends before the end of its files.
pub(super) enum End {
    /// With this error.
    Refused(Error),
    /// With a batch of the last file that can't be read: all bytes of the file from there on.
    Rest(Vec<u8>),
}

/// The stretches of a queue that were read, none of which are neighbors, and the first place where the reading ends.
pub(super) struct Stretches {
    queue: Queue,
    /// The stretches, by the positions of their first pieces.
    read: Mutex<BTreeMap<Position, Stretch>>,
    /// The first piece at which the reading ends, and how; `None` as long as none is known.
    end: Mutex<Option<(Position, End)>>,
}

impl Position {
    /// Returns the position behind this one: that of the first piece of the next file, if `is_last` says that this is the last
    /// piece of its file, else that of the next piece.
    pub(super) fn next_position(self, is_last: bool) -> Position {
        match is_last {
            true => Position {
                file: self.file + 1,
                piece: 0,
            },
            false => Position {
                piece: self.piece + 1,
                ..self
            },
        }
    }
}

impl Stretches {
    /// Makes the stretches of a queue of which nothing was read yet.
    pub(super) fn new(queue: Queue) -> Stretches {
        Stretches {
            queue,
            read: Mutex::default(),
            end: Mutex::default(),
        }
    }

    /// Adds a stretch, and merges it with its neighbors. Where a merge is refused, the reading of the queue ends between the two.
    pub(super) fn add(&self, mut stretch: Stretch) {
        while let Some((older, newer)) = self.take_neighbor_of(stretch) {
            let seam = newer.from;
            stretch = match older.merge(newer, self.queue) {
                Ok(both) => both,
                Err(e) => return self.note_end_at(seam, End::Refused(e)),
            };
        }
    }

    /// Takes out a neighbor of a stretch, and returns both, the older one first. Where it has no neighbor the stretch is kept
    /// here, and `None` returned.
    fn take_neighbor_of(&self, stretch: Stretch) -> Option<(Stretch, Stretch)> {
        let mut read = locks::lock(&self.read);
        let older = read.range(..stretch.from).next_back();
        let older = older.filter(|(_, older)| older.to == Some(stretch.from));
        let older = older.map(|(from, _)| *from);
        if let Some(older) = older.and_then(|from| read.remove(&from)) {
            return Some((older, stretch));
        }
        if let Some(newer) = stretch.to.and_then(|to| read.remove(&to)) {
            return Some((stretch, newer));
        }
        read.insert(stretch.from, stretch);
        None
    }

    /// Notes that the reading ends at a piece, and how, unless an end before this piece is known.
    pub(super) fn note_end_at(&self, piece: Position, end: End) {
        let mut first = locks::lock(&self.end);
        if first.as_ref().is_none_or(|(at, _)| piece < *at) {
            *first = Some((piece, end));
        }
    }

    /// Tests whether the reading ends in a file before the one at position `file`.
    pub(super) fn ends_before(&self, file: usize) -> bool {
        let first = locks::lock(&self.end);
        first.as_ref().is_some_and(|(at, _)| at.file < file)
    }

    /// Returns the reader that has read the queue up to the end of the reading, and the bytes of the last file from there on:
    /// none where that file was read to its end.
    ///
    /// # Errors
    ///
    /// That of the first piece that is refused; `Memory`.
    pub(super) fn finish(self) -> Result<(ReaderHandle, Vec<u8>)> {
        let end = self
            .end
            .into_inner()
            .unwrap_or_else(PoisonError::into_inner);
        let rest = match end {
            Some((_, End::Refused(e))) => return Err(e),
            Some((_, End::Rest(rest))) => rest,
            None => Vec::new(),
        };
        let mut read = self
            .read
            .into_inner()
            .unwrap_or_else(PoisonError::into_inner);
        match read.pop_first() {
            Some((_, first)) => Ok((first.reader, rest)),
            None => Ok((ReaderHandle::new()?, rest)),
        }
    }
}

impl Stretch {
    /// Makes an empty stretch before the piece at a position, whose reader has read nothing.
    ///
    /// # Errors
    ///
    /// `Memory`.
    pub(super) fn new(piece: Position) -> Result<Stretch> {
        Ok(Stretch {
            from: piece,
            to: Some(piece),
            reader: ReaderHandle::new()?,
        })
    }

    /// Merges a stretch with its newer neighbor into one.
    ///
    /// # Errors
    ///
    /// Those of [`ReaderHandle::merge`]. Both readers are gone then.
    fn merge(self, newer: Stretch, queue: Queue) -> Result<Stretch> {
        Ok(Stretch {
            from: self.from,
            to: newer.to,
            reader: self.reader.merge(newer.reader, queue)?,
        })
    }
}
