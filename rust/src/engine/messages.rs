//! Reads messages of a program's own: entries and values that are decoded.

use super::{Engine, Entries};
use crate::{Error, Files, Message, Result};
use std::fmt;
use std::ops::RangeBounds;

impl<F: Files> Engine<F> {
    /// Returns the value of a region's key, decoded as a message; `None` where the key has no value.
    ///
    /// ```
    /// # use raft_recover::{Engine, ErrorKind, LogBatch, MemoryFiles, Options};
    /// # let engine = Engine::with_files(MemoryFiles::new(), Options::new())?;
    /// # let mut batch = LogBatch::new()?;
    /// batch.put_message(7, b"state", &"leader".to_owned())?;
    /// batch.put(7, b"other", b"\xff")?;
    /// engine.write(&mut batch, true)?;
    /// assert_eq!(engine.get_message::<String>(7, b"state")?.unwrap(), "leader");
    /// assert_eq!(engine.get_message::<String>(7, b"none")?, None);
    /// let refused = engine.get_message::<String>(7, b"other").unwrap_err();
    /// assert_eq!(refused.kind, ErrorKind::Message);
    /// # Ok::<(), raft_recover::Error>(())
    /// ```
    ///
    /// # Errors
    ///
    /// `Message`, with the region, where the value can't be decoded; those of [`Engine::get`].
    pub fn get_message<M: Message>(&self, region: u64, key: &[u8]) -> Result<Option<M>> {
        let value = self.get(region, key)?;
        value
            .map(|value| decode_value(region, key, &value))
            .transpose()
    }

    /// Returns the keys of a region that are in a range, each with its value decoded as a message, in the order of the keys.
    ///
    /// ```
    /// # use raft_recover::{Engine, LogBatch, MemoryFiles, Options};
    /// # let engine = Engine::with_files(MemoryFiles::new(), Options::new())?;
    /// # let mut batch = LogBatch::new()?;
    /// batch.put_message(7, b"a", &"one".to_owned())?;
    /// batch.put_message(7, b"b", &"two".to_owned())?;
    /// engine.write(&mut batch, true)?;
    /// let messages = engine.scan_messages::<String>(7, ..)?;
    /// assert_eq!(messages[1], (b"b".to_vec(), "two".to_owned()));
    /// # Ok::<(), raft_recover::Error>(())
    /// ```
    ///
    /// # Errors
    ///
    /// `Message`, with the region, where a value can't be decoded; those of [`Engine::scan`].
    pub fn scan_messages<'a, M: Message>(
        &self,
        region: u64,
        range: impl RangeBounds<&'a [u8]>,
    ) -> Result<Vec<(Vec<u8>, M)>> {
        let pairs = self.scan(region, range)?;
        let messages = pairs
            .iter()
            .map(|(key, value)| Ok((key.to_vec(), decode_value(region, key, value)?)));
        messages.collect()
    }

    /// Returns the entry of a region at an index, decoded as a message; `None` where the region has no entry there.
    ///
    /// ```
    /// # use raft_recover::{Engine, LogBatch, MemoryFiles, Options};
    /// # let engine = Engine::with_files(MemoryFiles::new(), Options::new())?;
    /// # let mut batch = LogBatch::new()?;
    /// batch.add_messages(7, 10, &["one".to_owned(), "two".to_owned()])?;
    /// engine.write(&mut batch, true)?;
    /// assert_eq!(engine.entry_of::<String>(7, 11)?.unwrap(), "two");
    /// assert_eq!(engine.entry_of::<String>(7, 12)?, None);
    /// # Ok::<(), raft_recover::Error>(())
    /// ```
    ///
    /// # Errors
    ///
    /// `Message`, with the region and the index, where the entry can't be decoded; those of [`Engine::entry`].
    pub fn entry_of<M: Message>(&self, region: u64, index: u64) -> Result<Option<M>> {
        let message = self.entry_with(region, index, |bytes| decode_entry(region, index, bytes))?;
        message.transpose()
    }

    /// Returns the entries of a range of a region's indexes, decoded as messages. A bound that is left out is that of the
    /// region's entries.
    ///
    /// ```
    /// # use raft_recover::{Engine, LogBatch, MemoryFiles, Options};
    /// # let engine = Engine::with_files(MemoryFiles::new(), Options::new())?;
    /// # let mut batch = LogBatch::new()?;
    /// batch.add_messages(7, 10, &["one".to_owned(), "two".to_owned()])?;
    /// engine.write(&mut batch, true)?;
    /// assert_eq!(engine.entries_of::<String>(7, ..)?, ["one", "two"]);
    /// # Ok::<(), raft_recover::Error>(())
    /// ```
    ///
    /// # Errors
    ///
    /// `Message`, with the region and the index, for the first entry that can't be decoded; those of [`Engine::entries`].
    pub fn entries_of<M: Message>(
        &self,
        region: u64,
        range: impl RangeBounds<u64>,
    ) -> Result<Vec<M>> {
        decode_entries(region, &self.entries(region, range)?)
    }

    /// Returns the first entries of a range of a region's indexes, decoded as messages: as many as have at most `max_size`
    /// encoded bytes together. The first one that has bytes is returned whatever its size. A bound that is left out is that of
    /// the region's entries.
    ///
    /// ```
    /// # use raft_recover::{Engine, LogBatch, MemoryFiles, Options};
    /// # let engine = Engine::with_files(MemoryFiles::new(), Options::new())?;
    /// # let mut batch = LogBatch::new()?;
    /// batch.add_messages(7, 10, &["one".to_owned(), "two".to_owned(), "three".to_owned()])?;
    /// engine.write(&mut batch, true)?;
    /// assert_eq!(engine.entries_of_up_to::<String>(7, 10.., 6)?, ["one", "two"]);
    /// # Ok::<(), raft_recover::Error>(())
    /// ```
    ///
    /// # Errors
    ///
    /// Those of [`Engine::entries_of`].
    pub fn entries_of_up_to<M: Message>(
        &self,
        region: u64,
        range: impl RangeBounds<u64>,
        max_size: u64,
    ) -> Result<Vec<M>> {
        decode_entries(region, &self.entries_up_to(region, range, max_size)?)
    }
}

/// Decodes entries of `region` as messages, in order.
///
/// # Errors
///
/// `Message`, with the region and the index, for the first entry that can't be decoded.
fn decode_entries<M: Message>(region: u64, entries: &Entries) -> Result<Vec<M>> {
    let entries = entries.iter();
    let messages = entries.map(|(index, bytes)| decode_entry(region, index, bytes));
    messages.collect()
}

/// Decodes the value of a region's key as a message. Region and key are for the error.
///
/// # Errors
///
/// `Message` where it can't be decoded; the error has the region, and its text the key too.
fn decode_value<M: Message>(region: u64, key: &[u8], value: &[u8]) -> Result<M> {
    let key = key.escape_ascii();
    let message = decode_with_place(value, format_args!("region {region}, key {key}"));
    message.map_err(|e| e.with_region(region, None))
}

/// Decodes the bytes of an entry as a message. Region and index are for the error.
///
/// # Errors
///
/// `Message`, with the region and the index, where they can't be decoded.
fn decode_entry<M: Message>(region: u64, index: u64, bytes: &[u8]) -> Result<M> {
    let message = decode_with_place(bytes, format_args!("region {region}, entry {index}"));
    message.map_err(|e| e.with_region(region, Some(index)))
}

/// Decodes bytes as a message. `place` says in words where the bytes are, for the error.
///
/// # Errors
///
/// `Message`, with that place in its text, where they can't be decoded.
fn decode_with_place<M: Message>(bytes: &[u8], place: impl fmt::Display) -> Result<M> {
    M::decode(bytes).map_err(|e| Error::message(place, e))
}
