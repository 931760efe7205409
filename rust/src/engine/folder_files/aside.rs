//! Keeps bytes aside before they are cut off a log file.

use super::names::cut_file_name;
use crate::FileId;
use std::fs::{self, File};
use std::io::{self, Write};
use std::path::{Path, PathBuf};

/// Writes bytes that are about to be cut off a log file at `offset` to a file of their own in the folder, and syncs that file.
/// Its name isn't synced yet.
///
/// # Errors
///
/// Those of the system. Where the new file can't be written the error has its path, and what was written of it is deleted.
pub(super) fn keep_aside(folder: &Path, id: FileId, offset: u64, bytes: &[u8]) -> io::Result<()> {
    let path = path_for_cut_bytes(folder, id, offset, bytes)?;
    write_and_sync(&path, bytes).map_err(|e| {
        let _ = fs::remove_file(&path); // all of it still stands in the log file
        let text = format!("what is cut can't be kept in {}: {e}", path.display());
        io::Error::new(e.kind(), text)
    })
}

/// Returns the path of the file that keeps bytes cut off at an offset. It is the first name under which there is no file, or one
/// with a prefix of these bytes: an earlier opening left that, and crashed before it had cut them off. Files with other bytes
/// stay.
///
/// # Errors
///
/// Those of the system, where a file that is there can't be read.
fn path_for_cut_bytes(folder: &Path, id: FileId, offset: u64, bytes: &[u8]) -> io::Result<PathBuf> {
    let mut nth = 1;
    loop {
        let path = folder.join(cut_file_name(id, offset, nth));
        match fs::read(&path) {
            Ok(kept) if !bytes.starts_with(&kept) => nth += 1,
            Ok(_) => return Ok(path),
            Err(e) if e.kind() == io::ErrorKind::NotFound => return Ok(path),
            Err(e) => return Err(e),
        }
    }
}

/// Makes a file at `path` that has just `bytes`, in place of one that is there, and syncs it, but not its name.
///
/// # Errors
///
/// Those of the system. Part of the file may be there then.
fn write_and_sync(path: &Path, bytes: &[u8]) -> io::Result<()> {
    let mut file = File::create(path)?;
    file.write_all(bytes)?;
    file.sync_all()
}
