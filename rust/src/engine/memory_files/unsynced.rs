//! How much of a queue isn't synced.

use super::Ask;

/// How much of the asks of a queue that aren't synced: all of it, as [`MemoryFiles::unsynced`](crate::MemoryFiles::unsynced)
/// returns it, or the first part, which a crash leaves ([`MemoryFiles::left`](crate::MemoryFiles::left)). The default is nothing.
///
/// ```
/// # use raft_recover::{FileId, Files, MemoryFiles, Queue, Unsynced};
/// # let files = MemoryFiles::new();
/// # let file = FileId::new(Queue::Append, 1);
/// files.rotate(file)?;
/// files.write(file, b"bytes")?;
/// // the new file, and its five bytes
/// assert_eq!(files.unsynced(2, Queue::Append), Unsynced { steps: 6, deletions: 0 });
/// # Ok::<(), std::io::Error>(())
/// ```
#[derive(Clone, Copy, PartialEq, Eq, Hash, Debug, Default)]
pub struct Unsynced {
    /// How many steps, in the order in which they were asked: each byte that was written, each cut and each new file is one.
    pub steps: usize,
    /// How many deletions of files, oldest first.
    pub deletions: usize,
}

impl Unsynced {
    /// Returns how much isn't synced once `ask` is done too.
    pub(super) fn with_ask(self, ask: &Ask) -> Unsynced {
        let Unsynced { steps, deletions } = self;
        match ask {
            Ask::Sync(_) => Unsynced::default(),
            Ask::Write(_, bytes) => Unsynced {
                steps: steps + bytes.len(),
                deletions,
            },
            Ask::Cut(..) => Unsynced {
                steps: steps + 1,
                deletions,
            },
            // what stands before a new file was synced when it was begun
            Ask::Begin(_) => Unsynced {
                steps: 1,
                deletions,
            },
            Ask::Delete(_) => Unsynced {
                steps,
                deletions: deletions + 1,
            },
        }
    }
}
