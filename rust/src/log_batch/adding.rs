//! Adds items to a batch.

use super::{LogBatch, Shape};
use crate::{Error, Message, Result};

impl LogBatch {
    /// Adds entries of `region`, as one item: `entries` has the bytes of each, which are copied. Their indexes rise by one
    /// from `first` on. Nothing is added where there are no entries.
    ///
    /// ```
    /// # use raft_recover::LogBatch;
    /// # let mut batch = LogBatch::new()?;
    /// batch.add_entries(7, 10, &["one", "two"])?;
    /// batch.add_entries(8, 1, &[vec![0; 100]])?;
    /// batch.add_entries(7, u64::MAX, &["the last index is kept free"]).unwrap_err();
    /// assert_eq!(batch.into_items()?.len(), 2);
    /// # Ok::<(), raft_recover::Error>(())
    /// ```
    ///
    /// # Errors
    ///
    /// `InvalidArgument` where the batch is no longer open, or an index would be 2^64 - 1 or more; `Full` where the entries of
    /// the batch would have 2^31 bytes or more together; `Memory`. The batch is as it was then.
    pub fn add_entries<E: AsRef<[u8]>>(
        &mut self,
        region: u64,
        first: u64,
        entries: &[E],
    ) -> Result<()> {
        if let [entry] = entries {
            return self.add_entries_with(region, first, 1, |batch| {
                batch.handle.add_entry(region, first, entry.as_ref())
            });
        }
        self.room.pack(entries)?;
        self.add_packed(region, first)
    }

    /// Adds entries of `region`, as one item: the bytes of each are a message of `messages`, encoded. Their indexes rise by
    /// one from `first` on. Nothing is added where there are no messages.
    ///
    /// ```
    /// # use raft_recover::LogBatch;
    /// # let mut batch = LogBatch::new()?;
    /// batch.add_messages(7, 10, &["one".to_owned(), "two".to_owned()])?;
    /// assert_eq!(batch.len(), 1);
    /// # Ok::<(), raft_recover::Error>(())
    /// ```
    ///
    /// # Errors
    ///
    /// `Message`, with the region and the index, for the first one that can't be encoded; those of [`LogBatch::add_entries`]. The
    /// batch is as it was then.
    pub fn add_messages<M: Message>(
        &mut self,
        region: u64,
        first: u64,
        messages: &[M],
    ) -> Result<()> {
        self.room.clear();
        for (at, message) in messages.iter().enumerate() {
            let encoded = self.room.push_with(|bytes| message.encode(bytes));
            encoded.map_err(|e| {
                let index = first.saturating_add(at as u64);
                let place = format_args!("region {region}, entry {index}");
                Error::message(place, e).with_region(region, Some(index))
            })?;
        }
        self.add_packed(region, first)
    }

    /// Adds the entries that are packed in `room` as one item of `region`, the first of them at the index `first`. `room` is
    /// empty after an `Ok`.
    ///
    /// # Errors
    ///
    /// Those of [`LogBatch::add_entries`]. The batch is as it was then.
    fn add_packed(&mut self, region: u64, first: u64) -> Result<()> {
        let count = self.room.len() as u64;
        self.add_entries_with(region, first, count, |batch| {
            batch.handle.add_packed(region, first, &batch.room)
        })?;
        self.room.clear_and_shrink();
        Ok(())
    }

    /// Adds `count` entries of `region` by the call `add`, as one item, the first of them at the index `first`, and notes the
    /// shape of that item.
    ///
    /// # Errors
    ///
    /// Those of `add`; `Memory`, before `add` is called. Nothing is noted then.
    fn add_entries_with(
        &mut self,
        region: u64,
        first: u64,
        count: u64,
        add: impl FnOnce(&mut LogBatch) -> Result<()>,
    ) -> Result<()> {
        self.shapes.reserve_one()?;
        add(self)?;
        if count > 0 {
            let end = first + count;
            self.shapes.note(region, Shape::Run { first, end });
        }
        Ok(())
    }

    /// Adds a clean of `region`, which removes all its records.
    ///
    /// ```
    /// # use raft_recover::{Content, LogBatch};
    /// # let mut batch = LogBatch::new()?;
    /// batch.clean(7)?;
    /// assert_eq!(batch.into_items()?.get(0).unwrap().content, Content::Clean);
    /// # Ok::<(), raft_recover::Error>(())
    /// ```
    ///
    /// # Errors
    ///
    /// `InvalidArgument` where the batch is no longer open; `Memory`. The batch is as it was then.
    pub fn clean(&mut self, region: u64) -> Result<()> {
        self.shapes.reserve_one()?;
        self.handle.clean(region)?;
        self.shapes.note(region, Shape::Clean);
        Ok(())
    }

    /// Adds a compaction of `region`, which removes its entries below `index`.
    ///
    /// ```
    /// # use raft_recover::{Content, LogBatch};
    /// # let mut batch = LogBatch::new()?;
    /// batch.compact(7, 10)?;
    /// assert_eq!(batch.into_items()?.get(0).unwrap().content, Content::Compact { index: 10 });
    /// # Ok::<(), raft_recover::Error>(())
    /// ```
    ///
    /// # Errors
    ///
    /// `InvalidArgument` where the batch is no longer open; `Memory`. The batch is as it was then.
    pub fn compact(&mut self, region: u64, index: u64) -> Result<()> {
        self.shapes.reserve_one()?;
        self.handle.compact(region, index)?;
        self.shapes.note(region, Shape::Compact(index));
        Ok(())
    }

    /// Adds a truncation of `region`, which removes its entries from `index` on.
    ///
    /// ```
    /// # use raft_recover::{Content, LogBatch};
    /// # let mut batch = LogBatch::new()?;
    /// batch.truncate(7, 10)?;
    /// assert_eq!(batch.into_items()?.get(0).unwrap().content, Content::Truncate { index: 10 });
    /// # Ok::<(), raft_recover::Error>(())
    /// ```
    ///
    /// # Errors
    ///
    /// `InvalidArgument` where the batch is no longer open; `Memory`. The batch is as it was then.
    pub fn truncate(&mut self, region: u64, index: u64) -> Result<()> {
        self.shapes.reserve_one()?;
        self.handle.truncate(region, index)?;
        self.shapes.note(region, Shape::Truncate(index));
        Ok(())
    }

    /// Adds a put of `key` with `value` in `region`. Both are copied.
    ///
    /// ```
    /// # use raft_recover::LogBatch;
    /// # let mut batch = LogBatch::new()?;
    /// batch.put(7, b"key", b"value")?;
    /// batch.put(7, b"__\x01", b"of a group").unwrap_err();
    /// assert_eq!(batch.into_items()?.len(), 1);
    /// # Ok::<(), raft_recover::Error>(())
    /// ```
    ///
    /// # Errors
    ///
    /// `InvalidArgument` where the batch is no longer open, or the key is that of the group markers, `__\x01`; `Memory`. The
    /// batch is as it was then.
    pub fn put(&mut self, region: u64, key: &[u8], value: &[u8]) -> Result<()> {
        self.shapes.reserve_one()?;
        self.handle.put(region, key, value)?;
        self.shapes.note(region, Shape::Pair);
        Ok(())
    }

    /// Adds a put of `key` in `region`, whose value is `message`, encoded. The key is copied.
    ///
    /// ```
    /// # use raft_recover::{Engine, LogBatch, MemoryFiles, Options};
    /// # let engine = Engine::with_files(MemoryFiles::new(), Options::new())?;
    /// # let mut batch = LogBatch::new()?;
    /// batch.put_message(7, b"state", &"leader".to_owned())?;
    /// engine.write(&mut batch, true)?;
    /// assert_eq!(engine.get_message(7, b"state")?, Some("leader".to_owned()));
    /// # Ok::<(), raft_recover::Error>(())
    /// ```
    ///
    /// # Errors
    ///
    /// `Message`, with the region, where the message can't be encoded; those of [`LogBatch::put`]. The batch is as it was then.
    pub fn put_message<M: Message>(&mut self, region: u64, key: &[u8], message: &M) -> Result<()> {
        let mut value = Vec::new();
        message.encode(&mut value).map_err(|e| {
            let key = key.escape_ascii();
            Error::message(format_args!("region {region}, key {key}"), e).with_region(region, None)
        })?;
        self.put(region, key, &value)
    }

    /// Adds a deletion of `key` in `region`, which removes the key and its value.
    ///
    /// ```
    /// # use raft_recover::{Content, LogBatch};
    /// # let mut batch = LogBatch::new()?;
    /// batch.delete(7, b"key")?;
    /// assert_eq!(batch.into_items()?.get(0).unwrap().content, Content::Delete { key: b"key".to_vec() });
    /// # Ok::<(), raft_recover::Error>(())
    /// ```
    ///
    /// # Errors
    ///
    /// `InvalidArgument` where the batch is no longer open; `Memory`. The batch is as it was then.
    pub fn delete(&mut self, region: u64, key: &[u8]) -> Result<()> {
        self.shapes.reserve_one()?;
        self.handle.delete(region, key)?;
        self.shapes.note(region, Shape::Pair);
        Ok(())
    }
}
