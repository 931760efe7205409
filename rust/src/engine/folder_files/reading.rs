//! Reads a file at an offset.

use std::fs::File;
use std::io;

/// Fills all of `bytes` with those of a file from `offset` on.
///
/// # Errors
///
/// Those of the system; also where the file ends before `bytes` are full.
#[cfg(unix)]
pub(super) fn read_at(file: &File, bytes: &mut [u8], offset: u64) -> io::Result<()> {
    std::os::unix::fs::FileExt::read_exact_at(file, bytes, offset)
}

/// Refuses to read. Where a system has no such call there is no library either, so the crate is only checked and documented
/// there.
///
/// # Errors
///
/// `Unsupported`, always.
#[cfg(not(unix))]
pub(super) fn read_at(_file: &File, _bytes: &mut [u8], _offset: u64) -> io::Result<()> {
    Err(io::ErrorKind::Unsupported.into())
}
