//! Packs entries, to lend them to the library.

use crate::{Error, Result};
use std::error;

/// How many bytes of room are kept at most once the entries in it were added: 1 MiB.
const KEPT: usize = 1 << 20;

/// The bytes of entries, one behind the other, and the length of each. Behind them there may be bytes of an entry that couldn't
/// be packed.
#[derive(Debug, Default)]
pub(crate) struct Packed {
    lens: Vec<usize>,
    bytes: Vec<u8>,
    /// How many bytes of room [`Packed::with_capacity`] was asked for. They are always kept.
    asked: usize,
}

impl Packed {
    /// Makes a pack of no entries, with room for entries of `bytes` bytes together.
    ///
    /// # Errors
    ///
    /// `Memory`.
    pub(crate) fn with_capacity(bytes: usize) -> Result<Packed> {
        let mut packed = Packed {
            asked: bytes,
            ..Packed::default()
        };
        packed
            .bytes
            .try_reserve_exact(bytes)
            .map_err(|_| Error::memory())?;
        Ok(packed)
    }

    /// Removes all entries. The room stays.
    pub(crate) fn clear(&mut self) {
        self.lens.clear();
        self.bytes.clear();
    }

    /// Removes all entries, and frees the room beyond what is kept for the next ones: 1 MiB, or what [`Packed::with_capacity`]
    /// asked for, if that is more.
    pub(crate) fn clear_and_shrink(&mut self) {
        self.clear();
        self.lens.shrink_to(KEPT / size_of::<usize>());
        self.bytes.shrink_to(self.asked.max(KEPT));
    }

    /// Returns how many entries there are.
    pub(crate) fn len(&self) -> usize {
        self.lens.len()
    }

    /// Returns the length of each entry, and the bytes of all.
    pub(super) fn lens_and_bytes(&self) -> (&[usize], &[u8]) {
        (&self.lens, &self.bytes)
    }

    /// Packs entries in place of those that are there. Room for all of them is made at once.
    ///
    /// # Errors
    ///
    /// `Memory`.
    pub(crate) fn pack<E: AsRef<[u8]>>(&mut self, entries: &[E]) -> Result<()> {
        self.clear();
        let mut lens = entries.iter().map(|entry| entry.as_ref().len());
        let bytes = lens.try_fold(0usize, usize::checked_add);
        let room = self.lens.try_reserve(entries.len());
        room.map_err(|_| Error::memory())?;
        let room = self.bytes.try_reserve(bytes.ok_or_else(Error::memory)?);
        room.map_err(|_| Error::memory())?;
        entries
            .iter()
            .try_for_each(|entry| self.push(entry.as_ref()))
    }

    /// Packs an entry behind the others.
    ///
    /// # Errors
    ///
    /// `Memory`.
    fn push(&mut self, entry: &[u8]) -> Result<()> {
        self.lens.try_reserve(1).map_err(|_| Error::memory())?;
        self.bytes
            .try_reserve(entry.len())
            .map_err(|_| Error::memory())?;
        self.lens.push(entry.len());
        self.bytes.extend_from_slice(entry);
        Ok(())
    }

    /// Packs an entry behind the others, whose bytes `put` appends to those that are there.
    ///
    /// # Errors
    ///
    /// That of `put`; a text where `put` took bytes away that were there before. The entry isn't packed then, but bytes of it
    /// may be there.
    pub(crate) fn push_with<E: Into<Box<dyn error::Error + Send + Sync>>>(
        &mut self,
        put: impl FnOnce(&mut Vec<u8>) -> std::result::Result<(), E>,
    ) -> std::result::Result<(), Box<dyn error::Error + Send + Sync>> {
        let before = self.bytes.len();
        put(&mut self.bytes).map_err(Into::into)?;
        let Some(len) = self.bytes.len().checked_sub(before) else {
            return Err("it took bytes away that were there before".into());
        };
        self.lens.push(len);
        Ok(())
    }
}
