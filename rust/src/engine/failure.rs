//! Failures of an engine, after which it takes no further change.

use super::Engine;
use crate::{Error, FileId, Files, Result};
use std::io;

/// Why an engine has failed.
#[derive(Debug)]
pub(super) struct Failure {
    /// The error with which it failed.
    reason: Error,
    /// Whether only the files have failed, so that the tables are whole, and can be read.
    is_readable: bool,
}

impl<F: Files> Engine<F> {
    /// Checks that the engine hasn't failed.
    ///
    /// # Errors
    ///
    /// `Failed`, with the reason and its place, where it has.
    pub(super) fn check_intact(&self) -> Result<()> {
        match self.failure.get() {
            None => Ok(()),
            Some(failure) => Err(failure.reason.to_failed()),
        }
    }

    /// Checks that the engine can be read: it hasn't failed, or only its files have.
    ///
    /// # Errors
    ///
    /// `Failed`, with the reason and its place, where it can't.
    pub(super) fn check_readable(&self) -> Result<()> {
        match self.failure.get() {
            Some(failure) if !failure.is_readable => Err(failure.reason.to_failed()),
            _ => Ok(()),
        }
    }

    /// Notes that the engine has failed, for `reason`, and can't be read any more. Returns `reason` as it is. A failure that
    /// was noted before stays.
    pub(super) fn fail_engine(&self, reason: Error) -> Error {
        self.note_failure(reason, false)
    }

    /// Notes that the files have failed, for `reason`. All that the tables have can still be read: bytes that were ordered and
    /// not written are read from memory. Returns `reason` as it is. A failure that was noted before stays.
    pub(super) fn fail_files(&self, reason: Error) -> Error {
        self.note_failure(reason, true)
    }

    /// Notes why the engine has failed, and whether it can still be read, unless a failure is noted already. Returns `reason`
    /// as it is.
    fn note_failure(&self, reason: Error, is_readable: bool) -> Error {
        let failure = Failure {
            reason: reason.clone(),
            is_readable,
        };
        self.failure.get_or_init(|| failure);
        reason
    }

    /// Fills all of `bytes` with those of a file from `offset` on. Bytes that aren't written yet are read from memory.
    ///
    /// # Errors
    ///
    /// Those of [`Files::read`].
    pub(super) fn read_at(&self, file: FileId, offset: u64, bytes: &mut [u8]) -> io::Result<()> {
        if self.unwritten.try_read_into(file, offset, bytes) {
            return Ok(());
        }
        self.files.read(file, offset, bytes)
    }
}
