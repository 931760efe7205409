//! Why a call was refused.

use crate::FileId;
use std::error;
use std::hash::{Hash, Hasher};
use std::sync::Arc;
use std::{fmt, io};

/// The kind of an error: what went wrong, and so what a caller can do.
///
/// The library passes a kind as a number: 1 for the first variant, and so on in their order. A program in C gets these numbers as
/// they are:
///
/// ```
/// use raft_recover::ErrorKind;
///
/// assert_eq!(ErrorKind::try_from(2), Ok(ErrorKind::Corruption));
/// assert_eq!(ErrorKind::Corruption.to_string(), "corruption");
/// assert!(ErrorKind::try_from(0).is_err());
/// ```
#[derive(Clone, Copy, PartialEq, Eq, Hash, Debug)]
#[non_exhaustive]
pub enum ErrorKind {
    /// An argument breaks a rule that the caller could have known.
    InvalidArgument,
    /// Bytes, or the items read from them, are not what an engine writes: they are damaged, torn, or of another program.
    Corruption,
    /// The system refused a call on a file, or bytes end before a value that should be read from them.
    Io,
    /// An encoded number is cut short, or isn't one.
    Codec,
    /// A message can't be encoded, or bytes aren't a message.
    Message,
    /// The call may succeed later: another engine has the folder open.
    TryAgain,
    /// The entries asked for were compacted away.
    EntryCompacted,
    /// The entries asked for are not there.
    EntryNotFound,
    /// A count or a length would pass its limit.
    Full,
    /// Anything else. It is for layers above: no call of this crate returns it.
    Other,
    /// There was no memory.
    Memory,
    /// An earlier call on this value failed, and the value takes no further calls.
    Failed,
}

impl ErrorKind {
    /// All kinds, in the order of their numbers. The first number is 1.
    const ALL: [ErrorKind; 12] = [
        ErrorKind::InvalidArgument,
        ErrorKind::Corruption,
        ErrorKind::Io,
        ErrorKind::Codec,
        ErrorKind::Message,
        ErrorKind::TryAgain,
        ErrorKind::EntryCompacted,
        ErrorKind::EntryNotFound,
        ErrorKind::Full,
        ErrorKind::Other,
        ErrorKind::Memory,
        ErrorKind::Failed,
    ];
}

impl TryFrom<u8> for ErrorKind {
    type Error = Error;

    /// Returns the kind that has a number in the library, from 1 to 12.
    ///
    /// # Errors
    ///
    /// `InvalidArgument` for any other number.
    fn try_from(number: u8) -> Result<ErrorKind> {
        usize::from(number)
            .checked_sub(1)
            .and_then(|i| ErrorKind::ALL.get(i))
            .copied()
            .ok_or_else(|| Error::invalid_argument(&format!("no kind has number {number}")))
    }
}

impl fmt::Display for ErrorKind {
    /// Shows the kind in plain words, in lower case.
    fn fmt(&self, f: &mut fmt::Formatter<'_>) -> fmt::Result {
        f.pad(match self {
            ErrorKind::InvalidArgument => "invalid argument",
            ErrorKind::Corruption => "corruption",
            ErrorKind::Io => "input or output",
            ErrorKind::Codec => "codec",
            ErrorKind::Message => "message",
            ErrorKind::TryAgain => "try again",
            ErrorKind::EntryCompacted => "entry compacted",
            ErrorKind::EntryNotFound => "entry not found",
            ErrorKind::Full => "full",
            ErrorKind::Other => "other",
            ErrorKind::Memory => "memory",
            ErrorKind::Failed => "failed",
        })
    }
}

/// Why a call was refused: the kind, the reason in words, and what the error is about, as far as that is known: a file and an
/// offset in it, a region and an index, or an item of a batch.
///
/// ```
/// use raft_recover::{ErrorKind, LogBatch};
///
/// let mut batch = LogBatch::new()?;
/// batch.finish()?;
/// let refused = batch.clean(7).unwrap_err();
/// assert_eq!(refused.kind, ErrorKind::InvalidArgument);
/// assert_eq!(refused.to_string(), "Invalid Argument: the batch is no longer open");
/// assert_eq!((refused.file, refused.offset), (None, None));
/// # Ok::<(), raft_recover::Error>(())
/// ```
///
/// Damaged bytes are named by their file and offset:
///
/// ```
/// use raft_recover::{Context, ErrorKind, FileId, FilePart, LogFile, Queue, Version};
///
/// let file = LogFile::new(Queue::Append, 3, Version::V2);
/// let refused = Context::new()?.replay(FilePart::new(file, &[7; 100])).unwrap_err();
/// assert_eq!(refused.kind, ErrorKind::Corruption);
/// assert_eq!(refused.file, Some(FileId::new(Queue::Append, 3)));
/// assert_eq!(refused.offset, Some(0));
/// # Ok::<(), raft_recover::Error>(())
/// ```
#[derive(Clone, Debug)]
#[non_exhaustive]
pub struct Error {
    /// The kind of the refusal.
    pub kind: ErrorKind,
    /// The kind and the reason in words, as in `Corruption: append file 3, offset 17: ..`. This is what is shown.
    pub text: String,
    /// The log file that the error is about.
    pub file: Option<FileId>,
    /// The offset in that file, in bytes.
    pub offset: Option<u64>,
    /// The region whose entry, key or item the error is about.
    pub region: Option<u64>,
    /// The index of the entry, or of the first entry of the item.
    pub index: Option<u64>,
    /// The position in its batch, from 0 on, of the item whose entries don't fit those of their region.
    pub item: Option<usize>,
    source: Option<Arc<Source>>,
}

/// The error of the system or of a message that caused an `Error`. It is boxed, so that an `Error` stays small.
#[derive(Debug)]
struct Source(Box<dyn error::Error + Send + Sync>);

/// The result of a call of this crate that may be refused.
///
/// ```
/// use raft_recover::{LogBatch, Result};
///
/// fn cleaned(region: u64) -> Result<LogBatch> {
///     let mut batch = LogBatch::new()?;
///     batch.clean(region)?;
///     Ok(batch)
/// }
///
/// assert!(cleaned(7).is_ok());
/// ```
pub type Result<T> = std::result::Result<T, Error>;

impl Error {
    /// Returns the kind of the system's error that is the reason; `None` where the reason is another one.
    ///
    /// ```
    /// use raft_recover::{Engine, Options};
    /// use std::io;
    ///
    /// let refused = Engine::open_read_only("/no such folder", Options::new()).unwrap_err();
    /// assert_eq!(refused.io_kind(), Some(io::ErrorKind::NotFound));
    /// ```
    #[must_use]
    pub fn io_kind(&self) -> Option<io::ErrorKind> {
        let source = &self.source.as_deref()?.0;
        source.downcast_ref().map(io::Error::kind)
    }

    /// Makes the error that the library reports by a number and a text. File, offset, region and index are read from the text, if
    /// they stand there. The number must be that of a kind.
    pub(crate) fn from_library(code: u32, text: String) -> Error {
        let kind = u8::try_from(code).map(ErrorKind::try_from);
        let Ok(Ok(kind)) = kind else {
            unreachable!("the library has no error of number {code}")
        };
        let place = ErrorPlace::parse(&text);
        Error {
            file: place.file.map(|(file, _)| file),
            offset: place.file.map(|(_, offset)| offset),
            region: place.region,
            index: place.index,
            ..Error::new(kind, text)
        }
    }

    /// Makes an error that names no file, region or item.
    pub(crate) fn new(kind: ErrorKind, text: impl Into<String>) -> Error {
        Error {
            kind,
            text: text.into(),
            file: None,
            offset: None,
            region: None,
            index: None,
            item: None,
            source: None,
        }
    }

    /// Makes the error of kind `InvalidArgument`: an argument breaks a rule, which `text` says.
    pub(crate) fn invalid_argument(text: &str) -> Error {
        Error::new(
            ErrorKind::InvalidArgument,
            format!("Invalid Argument: {text}"),
        )
    }

    /// Makes the error of kind `Memory`.
    pub(crate) fn memory() -> Error {
        Error::new(ErrorKind::Memory, "Memory")
    }

    /// Makes the error of kind `Failed`, for a call on a value that an earlier error has emptied.
    pub(crate) fn failed() -> Error {
        Error::new(ErrorKind::Failed, "Failed")
    }

    /// Returns the error of later calls on a value that failed with this one: kind `Failed`, its text behind `Failed: `, and the
    /// same place and source.
    pub(crate) fn to_failed(&self) -> Error {
        Error {
            kind: ErrorKind::Failed,
            text: format!("Failed: {}", self.text),
            ..self.clone()
        }
    }

    /// Makes the error of kind `Corruption` for bytes at an offset of a file, which aren't what an engine writes. `text` is the
    /// reason.
    pub(crate) fn corruption(file: FileId, offset: u64, text: &str) -> Error {
        Error::new(ErrorKind::Corruption, format!("Corruption: {text}")).with_place(file, offset)
    }

    /// Makes the error of kind `Io` for a call that the system refused, by the error `source`. `about` says what was refused.
    pub(crate) fn io(about: impl fmt::Display, source: io::Error) -> Error {
        let text = format!("IO Error: {about}: {source}");
        Error {
            source: Some(Arc::new(Source(source.into()))),
            ..Error::new(ErrorKind::Io, text)
        }
    }

    /// Makes the error of kind `Message` for a message that can't be encoded or decoded. `about` says where the message stands.
    pub(crate) fn message(
        about: impl fmt::Display,
        source: impl Into<Box<dyn error::Error + Send + Sync>>,
    ) -> Error {
        let source = source.into();
        let text = format!("Message Error: {about}: {source}");
        Error {
            source: Some(Arc::new(Source(source))),
            ..Error::new(ErrorKind::Message, text)
        }
    }

    /// Sets the item of a batch that the error is about, counted from 0, and puts it behind the kind in the text, as in
    /// `Corruption: item 3: ..`. A text without a reason behind its kind stays.
    pub(crate) fn with_item(mut self, item: usize) -> Error {
        if let Some((kind, reason)) = self.text.split_once(": ") {
            self.text = format!("{kind}: item {item}: {reason}");
        }
        self.item = Some(item);
        self
    }

    /// Sets the file and the offset that the error is about, and puts both behind the kind in the text, as in `Corruption: append
    /// file 3, offset 17: ..`. A text without a reason behind its kind stays.
    pub(crate) fn with_place(mut self, file: FileId, offset: u64) -> Error {
        if let Some((kind, reason)) = self.text.split_once(": ") {
            self.text = format!("{kind}: {file}, offset {offset}: {reason}");
        }
        (self.file, self.offset) = (Some(file), Some(offset));
        self
    }

    /// Sets the region and the index of the entry that the error is about, and puts both behind the kind in the text, as in
    /// `Corruption: region 7, index 12, append file 3, offset 17: ..`. A text without a reason behind its kind stays.
    pub(crate) fn with_entry(mut self, region: u64, index: u64) -> Error {
        if let Some((kind, reason)) = self.text.split_once(": ") {
            self.text = format!("{kind}: region {region}, index {index}, {reason}");
        }
        self.with_region(region, Some(index))
    }

    /// Sets the region that the error is about, and the index of its entry, if there is one. The text stays.
    pub(crate) fn with_region(self, region: u64, index: Option<u64>) -> Error {
        Error {
            region: Some(region),
            index,
            ..self
        }
    }
}

/// The place that stands between the kind and the reason in the text of an error: a file and an offset, as in `Corruption: append
/// file 3, offset 17: ..`, with the entry before them, as in `Corruption: region 7, index 12, append file 3, offset 17: ..`.
#[derive(Default)]
struct ErrorPlace {
    region: Option<u64>,
    index: Option<u64>,
    file: Option<(FileId, u64)>,
}

impl ErrorPlace {
    /// Reads the place that stands in `text`, the text of an error. Each part that isn't there is `None`.
    fn parse(text: &str) -> ErrorPlace {
        let mut place = ErrorPlace::default();
        let Some((_, words)) = text.split_once(": ") else {
            return place;
        };
        let Some((mut words, _)) = words.split_once(": ") else {
            return place;
        };
        (place.region, words) = parse_number_after("region ", words);
        (place.index, words) = parse_number_after("index ", words);
        place.file = parse_place_in_file(words);
        place
    }
}

/// Reads a number that `words` begin with after the word `word`, as in `index 12, ..`. Returns it with the words after the comma;
/// `None`, and all of `words`, where there is no such number.
fn parse_number_after<'a>(word: &str, words: &'a str) -> (Option<u64>, &'a str) {
    let number = |text: &'a str| {
        let (number, rest) = text.split_once(", ").unwrap_or((text, ""));
        Some((number.parse().ok()?, rest))
    };
    match words.strip_prefix(word).and_then(number) {
        Some((number, rest)) => (Some(number), rest),
        None => (None, words),
    }
}

/// Reads a file and an offset, as in `append file 3, offset 17`; `None` where the words are none.
fn parse_place_in_file(place: &str) -> Option<(FileId, u64)> {
    let (file, offset) = place.split_once(", offset ")?;
    let (queue, seq) = file.split_once(" file ")?;
    let file = FileId::new(queue.parse().ok()?, seq.parse().ok()?);
    Some((file, offset.parse().ok()?))
}

impl PartialEq for Error {
    /// Compares all but the sources.
    fn eq(&self, other: &Error) -> bool {
        let seen = |e: &Error| (e.kind, e.file, e.offset, e.region, e.index, e.item);
        seen(self) == seen(other) && self.text == other.text
    }
}

impl Eq for Error {}

impl Hash for Error {
    /// Hashes all but the source, so that equal errors have equal hashes.
    fn hash<H: Hasher>(&self, state: &mut H) {
        (self.kind, &self.text, self.file, self.offset).hash(state);
        (self.region, self.index, self.item).hash(state);
    }
}

impl fmt::Display for Error {
    /// Shows the text.
    fn fmt(&self, f: &mut fmt::Formatter<'_>) -> fmt::Result {
        f.pad(&self.text)
    }
}

impl error::Error for Error {
    /// Returns the error of the system, or of a message, that is the reason; `None` where neither is.
    fn source(&self) -> Option<&(dyn error::Error + 'static)> {
        let source = self.source.as_deref()?;
        Some(&*source.0)
    }
}
