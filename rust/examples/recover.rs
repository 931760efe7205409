//! Recovers the log files of a folder with four threads: `recover <folder>`. A file's name is its number in the append queue
//! and `.log`.

use raft_recover::{FilePart, LogFile, Queue, Version, recover};
use std::{env, error::Error, fs};

fn main() -> Result<(), Box<dyn Error>> {
    let mut files = Vec::new();
    for entry in fs::read_dir(env::args().nth(1).ok_or("recover <folder>")?)? {
        let path = entry?.path();
        let name = path.file_name().and_then(|name| name.to_str());
        if let Some(seq) = name.and_then(|name| name.strip_suffix(".log")?.parse().ok()) {
            let file = LogFile::new(Queue::Append, seq, Version::V2);
            files.push((file, fs::read(&path)?)); // 1.log, 2.log, ..
        }
    }
    files.sort();
    let parts: Vec<_> = files
        .iter()
        .map(|(file, bytes)| FilePart::new(*file, bytes))
        .collect();
    print!("{}", recover(&parts, Queue::Append, 4)?);
    Ok(())
}
