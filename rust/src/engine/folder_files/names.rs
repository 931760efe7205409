//! Names of the files in a folder.

use crate::{Error, FileId, Queue, Result};

/// Returns the ending of the names of a queue's files: `.raftlog` or `.rewrite`.
fn suffix_of_queue(queue: Queue) -> &'static str {
    match queue {
        Queue::Append => ".raftlog",
        Queue::Rewrite => ".rewrite",
    }
}

/// Returns the name of a log file: its number in 16 decimal digits or more, and the ending of its queue.
pub(super) fn log_file_name(file: FileId) -> String {
    format!("{:016}{}", file.seq, suffix_of_queue(file.queue))
}

/// Returns the name of the file that keeps what was cut off a log file at `offset`. `nth` counts the files for one offset, from 1
/// on.
pub(super) fn cut_file_name(file: FileId, offset: u64, nth: usize) -> String {
    let name = log_file_name(file);
    match nth {
        1 => format!("{name}.{offset}.cut"),
        _ => format!("{name}.{offset}.{nth}.cut"),
    }
}

/// Returns the id of the log file that has a name; `None` where the name doesn't end as those of log files do.
///
/// # Errors
///
/// `InvalidArgument` where the name ends as those of log files do, but isn't one.
pub(super) fn parse_log_file_name(name: &str) -> Result<Option<FileId>> {
    for queue in [Queue::Append, Queue::Rewrite] {
        let Some(number) = name.strip_suffix(suffix_of_queue(queue)) else {
            continue;
        };
        let id = number.parse().ok().map(|seq| FileId::new(queue, seq));
        return match id.filter(|id| log_file_name(*id) == name) {
            Some(id) => Ok(Some(id)),
            None => Err(Error::invalid_argument(&format!(
                "{name} isn't the name of a log file"
            ))),
        };
    }
    Ok(None)
}
