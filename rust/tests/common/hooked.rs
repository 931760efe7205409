//! Files that let a test decide on each call.

#![allow(dead_code)]

use raft_recover::{FileId, Files, MemoryFiles, Queue};
use std::io;

/// A call of [`Files`], but for `list`.
#[derive(Clone, Copy, Debug)]
pub enum Call<'a> {
    Write(FileId, &'a [u8]),
    Sync(Queue),
    Rotate(FileId),
    Delete(FileId),
    Truncate(FileId, u64),
    /// The file that is read, the offset, and how many bytes.
    Read(FileId, u64, usize),
}

impl Call<'_> {
    /// Tests whether the call changes files, as each of them does but a read.
    pub fn is_change(&self) -> bool {
        !matches!(self, Call::Read(..))
    }
}

/// Files in memory that make a call of a test, the hook, before each call on them. Where the hook returns an error, so does the
/// call, and nothing is done.
pub struct HookedFiles<H> {
    pub files: MemoryFiles,
    hook: H,
}

impl<H: Fn(Call<'_>) -> io::Result<()> + Send + Sync> HookedFiles<H> {
    /// Returns a handle to the same files that calls `hook` before each of their calls but `list`.
    pub fn new(files: &MemoryFiles, hook: H) -> HookedFiles<H> {
        let files = files.clone();
        HookedFiles { files, hook }
    }
}

impl<H: Fn(Call<'_>) -> io::Result<()> + Send + Sync> Files for HookedFiles<H> {
    /// Lists the files, without a call of the hook.
    fn list(&self, queue: Queue) -> io::Result<Vec<(u64, u64)>> {
        self.files.list(queue)
    }

    /// Appends the bytes to the file, unless the hook returns an error.
    fn write(&self, file: FileId, bytes: &[u8]) -> io::Result<()> {
        (self.hook)(Call::Write(file, bytes))?;
        self.files.write(file, bytes)
    }

    /// Syncs the queue, unless the hook returns an error.
    fn sync(&self, queue: Queue) -> io::Result<()> {
        (self.hook)(Call::Sync(queue))?;
        self.files.sync(queue)
    }

    /// Begins the file, unless the hook returns an error.
    fn rotate(&self, file: FileId) -> io::Result<()> {
        (self.hook)(Call::Rotate(file))?;
        self.files.rotate(file)
    }

    /// Deletes the file, unless the hook returns an error.
    fn delete(&self, file: FileId) -> io::Result<()> {
        (self.hook)(Call::Delete(file))?;
        self.files.delete(file)
    }

    /// Cuts the file to `len` bytes, unless the hook returns an error.
    fn truncate(&self, file: FileId, len: u64) -> io::Result<()> {
        (self.hook)(Call::Truncate(file, len))?;
        self.files.truncate(file, len)
    }

    /// Reads from the file, unless the hook returns an error.
    fn read(&self, file: FileId, offset: u64, bytes: &mut [u8]) -> io::Result<()> {
        (self.hook)(Call::Read(file, offset, bytes.len()))?;
        self.files.read(file, offset, bytes)
    }
}
