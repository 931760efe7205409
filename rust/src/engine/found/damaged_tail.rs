//! Finds the batches with damaged entries that stand at the end of the last append file.

use super::file_pieces::read_exact_at;
use crate::{CutTail, DamagedBatch, Files, Result, batch_len};

/// The length of the header of a batch, in bytes.
const HEADER_LEN: usize = 16;

/// Returns the tail of a file of `len` bytes that begins with a batch with damaged entries, and in which no batch has sound ones;
/// `None` where there is none. `damaged` are all batches of the file with damaged entries, in order, and `end` is where its last
/// batch ends. Of each batch in the tail only the header is read.
///
/// # Errors
///
/// `Io` with file and offset.
pub(super) fn find_damaged_tail(
    files: &impl Files,
    damaged: &[DamagedBatch],
    mut end: u64,
    len: u64,
) -> Result<Option<CutTail>> {
    let mut first = None;
    for batch in damaged.iter().rev() {
        let mut header = [0; HEADER_LEN];
        read_exact_at(files, batch.file, batch.offset, &mut header)?;
        if batch_len(&header).is_none_or(|len| batch.offset + len as u64 != end) {
            break; // behind it stands a sound batch
        }
        end = batch.offset;
        first = Some(batch);
    }
    Ok(first.map(|batch| CutTail {
        file: batch.file,
        offset: batch.offset,
        len: len - batch.offset,
        reason: Some(batch.reason.clone()),
    }))
}
