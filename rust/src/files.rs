//! Log files, their queues and formats, and parts of their bytes.

use crate::{Error, Result};
use std::fmt;
use std::str::FromStr;

/// The two queues of log files.
///
/// Its text is the word that error texts and the tool `raftlog` use, and its number that of raft-engine's `LogQueue`:
///
/// ```
/// use raft_recover::Queue;
///
/// assert_eq!(Queue::Rewrite.to_string(), "rewrite");
/// assert_eq!("append".parse(), Ok(Queue::Append));
/// assert_eq!(Queue::try_from(1), Ok(Queue::Rewrite));
/// assert!(Queue::try_from(2).is_err());
/// ```
#[derive(Clone, Copy, PartialEq, Eq, PartialOrd, Ord, Hash, Debug)]
pub enum Queue {
    /// The files to which new batches are written.
    Append,
    /// The files to which live records of old append files are moved, so that those can be deleted.
    Rewrite,
}

impl fmt::Display for Queue {
    /// Shows the word `append` or `rewrite`.
    fn fmt(&self, f: &mut fmt::Formatter<'_>) -> fmt::Result {
        f.pad(match self {
            Queue::Append => "append",
            Queue::Rewrite => "rewrite",
        })
    }
}

impl FromStr for Queue {
    type Err = Error;

    /// Returns the queue that a word names: `append` or `rewrite`.
    ///
    /// # Errors
    ///
    /// `InvalidArgument` for any other word.
    fn from_str(word: &str) -> Result<Queue> {
        match word {
            "append" => Ok(Queue::Append),
            "rewrite" => Ok(Queue::Rewrite),
            _ => Err(Error::invalid_argument(
                "a queue is 'append' or 'rewrite', and nothing else",
            )),
        }
    }
}

impl TryFrom<u8> for Queue {
    type Error = Error;

    /// Returns the queue that has a number: 0 is `Append`, 1 is `Rewrite`.
    ///
    /// # Errors
    ///
    /// `InvalidArgument` for any other number.
    fn try_from(number: u8) -> Result<Queue> {
        match number {
            0 => Ok(Queue::Append),
            1 => Ok(Queue::Rewrite),
            _ => Err(Error::invalid_argument(&format!(
                "no queue has number {number}"
            ))),
        }
    }
}

/// The format of a log file: how the checksums of item batches are written.
///
/// ```
/// use raft_recover::Version;
///
/// assert_eq!(Version::try_from(2), Ok(Version::V2));
/// assert!(Version::V1 < Version::V2);
/// ```
#[derive(Clone, Copy, PartialEq, Eq, PartialOrd, Ord, Hash, Debug)]
pub enum Version {
    /// A checksum is written as it is.
    V1,
    /// A checksum is signed for the file: combined by exclusive or with the low 32 bits of the file's number. So bytes of an
    /// older file aren't taken for a batch of this one.
    V2,
}

impl fmt::Display for Version {
    /// Shows `V1` or `V2`.
    fn fmt(&self, f: &mut fmt::Formatter<'_>) -> fmt::Result {
        f.pad(match self {
            Version::V1 => "V1",
            Version::V2 => "V2",
        })
    }
}

impl TryFrom<u8> for Version {
    type Error = Error;

    /// Returns the version that has a number: 1 or 2.
    ///
    /// # Errors
    ///
    /// `InvalidArgument` for any other number.
    fn try_from(number: u8) -> Result<Version> {
        match number {
            1 => Ok(Version::V1),
            2 => Ok(Version::V2),
            _ => Err(Error::invalid_argument(&format!(
                "no version has number {number}"
            ))),
        }
    }
}

/// The identity of a log file: its queue and its number. Its text is as in `append file 3`.
///
/// ```
/// use raft_recover::{FileId, LogFile, Queue, Version};
///
/// let file = LogFile::new(Queue::Append, 3, Version::V2);
/// assert_eq!(FileId::from(file), FileId::new(Queue::Append, 3));
/// assert_eq!(FileId::from(file).to_string(), "append file 3");
/// ```
#[derive(Clone, Copy, PartialEq, Eq, PartialOrd, Ord, Hash, Debug)]
pub struct FileId {
    /// The queue.
    pub queue: Queue,
    /// The number, unique within the queue. A newer file has a greater one.
    pub seq: u64,
}

impl FileId {
    /// Makes the id of the file with the number `seq` in a queue.
    ///
    /// ```
    /// use raft_recover::{FileId, Queue};
    ///
    /// assert_eq!(FileId::new(Queue::Rewrite, 3), FileId { queue: Queue::Rewrite, seq: 3 });
    /// ```
    #[must_use]
    pub const fn new(queue: Queue, seq: u64) -> FileId {
        FileId { queue, seq }
    }
}

impl fmt::Display for FileId {
    /// Shows the queue and the number, as in `append file 3`.
    fn fmt(&self, f: &mut fmt::Formatter<'_>) -> fmt::Result {
        write!(f, "{} file {}", self.queue, self.seq)
    }
}

impl From<LogFile> for FileId {
    /// Returns the id of a log file, which leaves out its format.
    fn from(file: LogFile) -> FileId {
        FileId::new(file.queue, file.seq)
    }
}

/// A log file with its format.
///
/// ```
/// use raft_recover::{LogFile, Queue, Version};
///
/// let file = LogFile { queue: Queue::Append, seq: 3, version: Version::V2 };
/// assert_eq!(file, LogFile::new(Queue::Append, 3, Version::V2));
/// ```
#[derive(Clone, Copy, PartialEq, Eq, PartialOrd, Ord, Hash, Debug)]
pub struct LogFile {
    /// The queue.
    pub queue: Queue,
    /// The number, unique within the queue. A newer file has a greater one.
    pub seq: u64,
    /// The format.
    pub version: Version,
}

impl LogFile {
    /// Makes the log file with the number `seq` in a queue, in a version.
    ///
    /// ```
    /// use raft_recover::{LogFile, Queue, Version};
    ///
    /// assert_eq!(LogFile::new(Queue::Append, 3, Version::V2).seq, 3);
    /// ```
    #[must_use]
    pub const fn new(queue: Queue, seq: u64, version: Version) -> LogFile {
        LogFile {
            queue,
            seq,
            version,
        }
    }
}

/// A part of a file: bytes from an offset on. Calls that replay it need whole log batches, one behind the other.
///
/// ```
/// use raft_recover::{FilePart, LogFile, Queue, Version};
///
/// let file = LogFile::new(Queue::Append, 1, Version::V2);
/// let whole = FilePart::new(file, b"..");
/// assert_eq!(whole, FilePart { file, offset: 0, bytes: b".." });
/// ```
///
/// It borrows the bytes, so they have to live longer:
///
/// ```compile_fail,E0597
/// use raft_recover::{FilePart, LogFile, Queue, Version};
///
/// let part = {
///     let bytes = vec![0; 16];
///     FilePart::new(LogFile::new(Queue::Append, 1, Version::V2), &bytes)
/// };
/// println!("{part:?}");
/// ```
#[derive(Clone, Copy, PartialEq, Eq, Hash)]
pub struct FilePart<'a> {
    /// The file.
    pub file: LogFile,
    /// Where in the file the bytes begin, in bytes.
    pub offset: u64,
    /// The bytes, which aren't copied.
    pub bytes: &'a [u8],
}

impl<'a> FilePart<'a> {
    /// Makes the part of a file that begins at offset 0.
    ///
    /// ```
    /// use raft_recover::{FilePart, LogFile, Queue, Version};
    ///
    /// let part = FilePart::new(LogFile::new(Queue::Append, 1, Version::V2), b"bytes");
    /// assert_eq!((part.offset, part.bytes), (0, &b"bytes"[..]));
    /// ```
    #[must_use]
    pub const fn new(file: LogFile, bytes: &'a [u8]) -> FilePart<'a> {
        FilePart {
            file,
            offset: 0,
            bytes,
        }
    }

    /// Checks what the library needs of a part: its bytes end at an offset below 2^64.
    ///
    /// # Errors
    ///
    /// `InvalidArgument` where they don't.
    pub(crate) fn check_end(&self) -> Result<()> {
        match self.offset.checked_add(self.bytes.len() as u64) {
            Some(_) => Ok(()),
            None => Err(Error::invalid_argument("a part ends past the last offset")),
        }
    }
}

impl fmt::Debug for FilePart<'_> {
    /// Shows the number of bytes in place of the bytes.
    fn fmt(&self, f: &mut fmt::Formatter<'_>) -> fmt::Result {
        f.debug_struct("FilePart")
            .field("file", &self.file)
            .field("offset", &self.offset)
            .field("len", &self.bytes.len())
            .finish_non_exhaustive()
    }
}
