//! Files in a folder that are compared with a copy in memory.

#![allow(dead_code)]

use raft_recover::{FileId, Files, FolderFiles, MemoryFiles, Queue};
use std::io;

/// Files in a folder, with a copy in memory. Each change is made in the folder, and, if that succeeds, in memory. An error is that
/// of the folder or, after it, of the copy. What is read is compared.
pub struct FolderWithCopy {
    pub folder: FolderFiles,
    pub memory: MemoryFiles,
}

impl Files for FolderWithCopy {
    /// Lists the files of the folder. Panics where the copy has others, or other lengths.
    fn list(&self, queue: Queue) -> io::Result<Vec<(u64, u64)>> {
        let listed = self.folder.list(queue)?;
        assert_eq!(listed, self.memory.list(queue)?);
        Ok(listed)
    }

    /// Appends the bytes to the file in the folder, then to the copy.
    fn write(&self, file: FileId, bytes: &[u8]) -> io::Result<()> {
        self.folder.write(file, bytes)?;
        self.memory.write(file, bytes)
    }

    /// Syncs the queue in the folder, then in the copy.
    fn sync(&self, queue: Queue) -> io::Result<()> {
        self.folder.sync(queue)?;
        self.memory.sync(queue)
    }

    /// Begins the file in the folder, then in the copy.
    fn rotate(&self, file: FileId) -> io::Result<()> {
        self.folder.rotate(file)?;
        self.memory.rotate(file)
    }

    /// Deletes the file in the folder, then in the copy.
    fn delete(&self, file: FileId) -> io::Result<()> {
        self.folder.delete(file)?;
        self.memory.delete(file)
    }

    /// Cuts the file in the folder to `len` bytes, then the copy.
    fn truncate(&self, file: FileId, len: u64) -> io::Result<()> {
        self.folder.truncate(file, len)?;
        self.memory.truncate(file, len)
    }

    /// Reads from the file in the folder. Panics where the copy can be read there and has other bytes.
    fn read(&self, file: FileId, offset: u64, bytes: &mut [u8]) -> io::Result<()> {
        self.folder.read(file, offset, bytes)?;
        let mut same = vec![0; bytes.len()];
        if self.memory.read(file, offset, &mut same).is_ok() {
            assert_eq!(same, bytes);
        }
        Ok(())
    }
}
