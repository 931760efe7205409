//! Which unreadable tails of files an opening cuts off.

/// What an opening does with the tail of a queue's last file, from the first batch on that can't be read: whether it is cut off,
/// or the files are refused. In the last append file the batches in front of it belong to the tail whose entries are damaged, if
/// no batch with sound entries stands behind them.
///
/// ```
/// use raft_recover::{Engine, ErrorKind, MemoryFiles, Options, RecoveryMode};
///
/// let found = || MemoryFiles::found(vec![(1, b"a torn tail".to_vec())], vec![]);
/// let strict = Options::new().recovery_mode(RecoveryMode::AbsoluteConsistency);
/// let refused = Engine::with_files(found(), strict).unwrap_err();
/// assert_eq!((refused.kind, refused.offset), (ErrorKind::Corruption, Some(0)));
/// let engine = Engine::with_files(found(), Options::new())?;
/// assert_eq!(engine.recovered().append.as_ref().unwrap().len, 11);
/// # Ok::<(), raft_recover::Error>(())
/// ```
///
/// In each mode these are refused: a file that is missing between two others; one that can't be read and isn't the last of its
/// queue; one of the other version, or of raft-engine; damaged entries in the last rewrite file.
#[derive(Clone, Copy, PartialEq, Eq, Hash, Debug, Default)]
#[non_exhaustive]
pub enum RecoveryMode {
    /// Cuts nothing off: a batch that would be cut is refused, with its file and offset.
    AbsoluteConsistency,
    /// Cuts off what a crash can leave: a tail that can be part of a single batch, or behind whose beginning there is no batch,
    /// neither one that can be read nor one that is signed for another file. Any other tail is damage, and refused.
    #[default]
    TolerateTornTail,
    /// Cuts off any tail, whatever it has. Where the file is damaged this loses sound batches: choose it only after a look at the
    /// file.
    TolerateTailCorruption,
}
