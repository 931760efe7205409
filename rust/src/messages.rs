//! Messages of a program's own, to be entries and values.

use std::convert::Infallible;
use std::error::Error;
use std::string::FromUtf8Error;

/// A message of a program's own, which is written as an entry or as a value and read again. The crate knows no format: an
/// implementation for messages of protobuf or serde is two calls.
///
/// ```
/// use raft_recover::{Engine, LogBatch, MemoryFiles, Message, Options};
///
/// #[derive(Debug, PartialEq)]
/// struct Vote {
///     term: u64,
///     node: u64,
/// }
///
/// impl Message for Vote {
///     type Error = &'static str;
///
///     fn encode(&self, bytes: &mut Vec<u8>) -> Result<(), Self::Error> {
///         bytes.extend([self.term, self.node].map(u64::to_le_bytes).as_flattened());
///         Ok(())
///     }
///
///     fn decode(bytes: &[u8]) -> Result<Vote, Self::Error> {
///         let (numbers, []) = bytes.as_chunks() else {
///             return Err("there are no numbers of 8 bytes");
///         };
///         let [term, node] = numbers.try_into().map_err(|_| "there aren't two numbers")?;
///         let [term, node] = [term, node].map(u64::from_le_bytes);
///         Ok(Vote { term, node })
///     }
/// }
///
/// let engine = Engine::with_files(MemoryFiles::new(), Options::new())?;
/// let vote = Vote { term: 2, node: 3 };
/// let mut batch = LogBatch::new()?;
/// batch.put_message(7, b"vote", &vote)?;
/// engine.write(&mut batch, true)?;
/// assert_eq!(engine.get_message(7, b"vote")?, Some(vote));
/// # Ok::<(), raft_recover::Error>(())
/// ```
pub trait Message: Sized {
    /// The error where a message can't be encoded, or bytes can't be decoded. It may be a text.
    type Error: Into<Box<dyn Error + Send + Sync>>;

    /// Appends the message's bytes to `bytes`. What is there already stays as it is.
    ///
    /// ```
    /// use raft_recover::Message;
    ///
    /// let mut bytes = b"before, ".to_vec();
    /// "behind".to_owned().encode(&mut bytes).unwrap();
    /// assert_eq!(bytes, b"before, behind");
    /// ```
    ///
    /// # Errors
    ///
    /// Those of the message. What was appended by then isn't used.
    fn encode(&self, bytes: &mut Vec<u8>) -> Result<(), Self::Error>;

    /// Makes the message of its bytes, which are all of `bytes`.
    ///
    /// ```
    /// use raft_recover::Message;
    ///
    /// assert_eq!(String::decode(b"words").unwrap(), "words");
    /// assert!(String::decode(b"\xff").is_err());
    /// ```
    ///
    /// # Errors
    ///
    /// Those of the message.
    fn decode(bytes: &[u8]) -> Result<Self, Self::Error>;
}

/// Encodes bytes as they are.
impl Message for Vec<u8> {
    type Error = Infallible;

    /// Appends the bytes as they are. It never fails.
    fn encode(&self, bytes: &mut Vec<u8>) -> Result<(), Infallible> {
        bytes.extend_from_slice(self);
        Ok(())
    }

    /// Returns a copy of the bytes. It never fails.
    fn decode(bytes: &[u8]) -> Result<Vec<u8>, Infallible> {
        Ok(bytes.to_vec())
    }
}

/// Encodes a text as UTF-8.
impl Message for String {
    type Error = FromUtf8Error;

    /// Appends the text's bytes in UTF-8. It never fails.
    fn encode(&self, bytes: &mut Vec<u8>) -> Result<(), FromUtf8Error> {
        bytes.extend_from_slice(self.as_bytes());
        Ok(())
    }

    /// Returns the text that the bytes encode.
    ///
    /// # Errors
    ///
    /// That of `String::from_utf8`, where the bytes aren't UTF-8.
    fn decode(bytes: &[u8]) -> Result<String, FromUtf8Error> {
        String::from_utf8(bytes.to_vec())
    }
}
