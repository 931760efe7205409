//! Writes bytes to a log file: all of them, or none where there is no room.

use std::fs::File;
use std::io::{self, Write};

/// Writes bytes at the end of a file. Where there is no room for all of them, those that were written are cut off again.
///
/// # Errors
///
/// [`ChangeError::AsBefore`] where there is no room, and the file has none of the bytes. [`ChangeError::InPart`] for any
/// other error of the system, or where they couldn't be cut off again: some of the bytes may be in the file then.
pub(super) fn write_all_or_nothing(
    mut file: &File,
    bytes: &[u8],
) -> std::result::Result<(), ChangeError> {
    let mut rest = bytes;
    while !rest.is_empty() {
        match file.write(rest) {
            Ok(0) => return Err(io::Error::from(io::ErrorKind::WriteZero).into()),
            Ok(written) => rest = &rest[written..],
            Err(e) if e.kind() == io::ErrorKind::Interrupted => {}
            Err(e) => {
                let written = (bytes.len() - rest.len()) as u64;
                if is_out_of_room(&e) && (written == 0 || cut_last_bytes(file, written).is_ok()) {
                    return Err(ChangeError::AsBefore(e));
                }
                return Err(e.into()); // what is there is cut as a torn tail
            }
        }
    }
    Ok(())
}

/// Why a change of the files failed, and whether some of it may be made.
#[derive(Debug)]
pub(super) enum ChangeError {
    /// Nothing is changed.
    AsBefore(io::Error),
    /// Some of the change may be made.
    InPart(io::Error),
}

impl From<io::Error> for ChangeError {
    /// Makes the error of a change that may be made in part: where nothing else is known, that is assumed.
    fn from(e: io::Error) -> ChangeError {
        ChangeError::InPart(e)
    }
}

/// Cuts the last `count` bytes off a file; all of them, if there are fewer.
///
/// # Errors
///
/// Those of the system.
fn cut_last_bytes(file: &File, count: u64) -> io::Result<()> {
    file.set_len(file.metadata()?.len().saturating_sub(count))
}

/// Tests whether an error of the system says that there is no room: on the disk, within a quota, or within the greatest length of
/// a file.
pub(super) fn is_out_of_room(refused: &io::Error) -> bool {
    matches!(
        refused.kind(),
        io::ErrorKind::StorageFull | io::ErrorKind::QuotaExceeded | io::ErrorKind::FileTooLarge
    )
}
