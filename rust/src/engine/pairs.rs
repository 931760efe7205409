//! Keys with their values, as a scan of a region returns them.

use crate::sys::PackedPairs;
use crate::{Error, Result};
use std::fmt;
use std::iter::FusedIterator;
use std::ops::{Bound, Range, RangeBounds};
use std::vec;

/// Iterates over keys of a region with their values, in the order of the keys.
///
/// All of them were read before the value was returned. What is written later doesn't show.
///
/// ```
/// use raft_recover::{Engine, LogBatch, MemoryFiles, Options};
///
/// let engine = Engine::with_files(MemoryFiles::new(), Options::new())?;
/// let mut batch = LogBatch::new()?;
/// for (key, value) in [("a", "1"), ("b", "2"), ("c", "3")] {
///     batch.put(7, key.as_bytes(), value.as_bytes())?;
/// }
/// engine.write(&mut batch, false)?;
///
/// for (key, value) in engine.scan(7, ..)? {
///     println!("{} {}", String::from_utf8_lossy(&key), String::from_utf8_lossy(&value));
/// }
/// let mut pairs = engine.scan(7, &b"b"[..]..)?;
/// assert_eq!(pairs.next_back(), Some((b"c".to_vec(), b"3".to_vec())));
/// assert_eq!(pairs.next(), Some((b"b".to_vec(), b"2".to_vec())));
/// assert_eq!(pairs.next(), None);
/// # Ok::<(), raft_recover::Error>(())
/// ```
///
/// Each item is a copy of the key and of its value. [`Pairs::iter`] lends them, in either order:
///
/// ```
/// # use raft_recover::{Engine, LogBatch, MemoryFiles, Options};
/// # let engine = Engine::with_files(MemoryFiles::new(), Options::new())?;
/// # let mut batch = LogBatch::new()?;
/// for (key, value) in [("a", "1"), ("b", "2"), ("c", "3")] {
///     batch.put(7, key.as_bytes(), value.as_bytes())?;
/// }
/// engine.write(&mut batch, false)?;
/// for (key, value) in engine.scan(7, ..&b"c"[..])?.iter().rev() {
///     if value == b"1" {
///         break;
///     }
///     assert_eq!((key, value), (&b"b"[..], &b"2"[..]));
/// }
/// # Ok::<(), raft_recover::Error>(())
/// ```
#[derive(Clone, Default)]
pub struct Pairs {
    /// The bytes of all keys and values, one behind the other.
    bytes: Vec<u8>,
    /// The pairs that are left.
    rest: vec::IntoIter<PairPlace>,
}

/// Where the bytes of a key and of its value are among those of [`Pairs`].
#[derive(Clone)]
struct PairPlace {
    key: Range<usize>,
    value: Range<usize>,
}

impl Pairs {
    /// Makes an iterator over packed pairs, in their order. The bytes are moved. The only error is `Memory`.
    pub(super) fn from_packed(packed: PackedPairs) -> Result<Pairs> {
        let PackedPairs { lens, bytes } = packed;
        let mut places = Vec::new();
        places
            .try_reserve_exact(lens.len() / 2)
            .map_err(|_| Error::memory())?;
        let mut end = 0;
        let mut next = |len| {
            let start = end;
            end += len;
            start..end
        };
        places.extend(lens.chunks_exact(2).map(|lens| PairPlace {
            key: next(lens[0]),
            value: next(lens[1]),
        }));
        Ok(Pairs {
            bytes,
            rest: places.into_iter(),
        })
    }

    /// Lends the pairs that are left, each as its key and its value, in the order of the keys or backwards. No byte is copied,
    /// and the pairs stay.
    ///
    /// ```
    /// # use raft_recover::{Engine, LogBatch, MemoryFiles, Options};
    /// # let engine = Engine::with_files(MemoryFiles::new(), Options::new())?;
    /// # let mut batch = LogBatch::new()?;
    /// batch.put(7, b"a", b"1")?;
    /// batch.put(7, b"b", b"2")?;
    /// engine.write(&mut batch, true)?;
    /// let pairs = engine.scan(7, ..)?;
    /// assert_eq!(pairs.iter().next_back(), Some((&b"b"[..], &b"2"[..])));
    /// assert_eq!(pairs.len(), 2); // none was taken
    /// # Ok::<(), raft_recover::Error>(())
    /// ```
    pub fn iter(
        &self,
    ) -> impl DoubleEndedIterator<Item = (&[u8], &[u8])> + ExactSizeIterator + FusedIterator + Clone
    {
        let places = self.rest.as_slice().iter();
        places.map(|place| {
            let [key, value] = [&place.key, &place.value].map(|range| &self.bytes[range.clone()]);
            (key, value)
        })
    }

    /// Returns copies of the key and the value that `place` describes.
    fn copy_pair(&self, place: PairPlace) -> (Vec<u8>, Vec<u8>) {
        let [key, value] = [place.key, place.value].map(|range| self.bytes[range].to_vec());
        (key, value)
    }
}

impl Iterator for Pairs {
    type Item = (Vec<u8>, Vec<u8>);

    /// Returns a copy of the first pair that is left; `None` where none is.
    fn next(&mut self) -> Option<(Vec<u8>, Vec<u8>)> {
        let place = self.rest.next()?;
        Some(self.copy_pair(place))
    }

    /// Returns how many pairs are left, exactly.
    fn size_hint(&self) -> (usize, Option<usize>) {
        self.rest.size_hint()
    }
}

impl DoubleEndedIterator for Pairs {
    /// Returns a copy of the last pair that is left; `None` where none is.
    fn next_back(&mut self) -> Option<(Vec<u8>, Vec<u8>)> {
        let place = self.rest.next_back()?;
        Some(self.copy_pair(place))
    }
}

impl ExactSizeIterator for Pairs {}

impl FusedIterator for Pairs {}

impl fmt::Debug for Pairs {
    /// Shows how many pairs are left.
    fn fmt(&self, f: &mut fmt::Formatter<'_>) -> fmt::Result {
        f.debug_struct("Pairs")
            .field("len", &self.len())
            .finish_non_exhaustive()
    }
}

/// Returns a range of keys as its least key and its end: the least key that is above all of the range, or `None` where the range
/// has no upper bound.
pub(super) fn key_bounds<'a>(range: &impl RangeBounds<&'a [u8]>) -> (Vec<u8>, Option<Vec<u8>>) {
    let start = match range.start_bound() {
        Bound::Included(key) => key.to_vec(),
        Bound::Excluded(key) => least_key_above(key),
        Bound::Unbounded => Vec::new(),
    };
    let end = match range.end_bound() {
        Bound::Included(key) => Some(least_key_above(key)),
        Bound::Excluded(key) => Some(key.to_vec()),
        Bound::Unbounded => None,
    };
    (start, end)
}

/// Returns the least key above a key: the same bytes and a zero byte behind them.
fn least_key_above(key: &[u8]) -> Vec<u8> {
    [key, &[0]].concat()
}
