//! Writes batches to a log file from four threads, cuts the last one short, and recovers the rest: `write <file>`. The tables
//! are those of slots, each under a lock of its own, and the file is under one lock.

use raft_recover::{
    FilePart, LogBatch, LogFile, Queue, SLOTS, Slot, Tables, Version, readable_front, recover,
};
use std::io::Write;
use std::sync::Mutex;
use std::{env, error::Error, fs, thread};

/// The file that is written.
const FILE: LogFile = LogFile::new(Queue::Append, 1, Version::V2);

/// The result of what the example does.
type Outcome<T> = Result<T, Box<dyn Error + Send + Sync>>;

/// A log file, and its length in bytes.
struct Log {
    file: fs::File,
    len: u64,
}

/// Writes a batch to the end of the log, syncs it, and applies its items to the tables of their slots. Errs where one of these
/// fails; then the file may have the batch and the tables not.
fn write_and_apply(
    log: &Mutex<Log>,
    slots: &[Mutex<Slot>; SLOTS],
    mut batch: LogBatch,
) -> Outcome<()> {
    batch.finish()?;
    batch.sign(FILE)?;
    let bytes = batch.bytes()?;
    // the tables take the items in the order of the file, so its lock is held until they have
    let mut log = log.lock().expect("no thread panics");
    log.file.write_all(&bytes)?;
    log.file.sync_data()?;
    batch.written(FILE.into(), log.len)?;
    log.len += bytes.len() as u64;
    let items = batch.into_items()?;
    for number in items.slots() {
        let mut slot = slots[number].lock().expect("no thread panics");
        slot.apply_append(&items)?;
    }
    Ok(())
}

/// Writes the entries of a region, ten to a batch, each batch with a key that has the last index.
fn write_region(log: &Mutex<Log>, slots: &[Mutex<Slot>; SLOTS], region: u64) -> Outcome<()> {
    for first in (1..100).step_by(10) {
        let mut batch = LogBatch::new()?;
        batch.add_entries(region, first, &["an entry"; 10])?;
        batch.put(region, b"last", &(first + 9).to_le_bytes())?;
        write_and_apply(log, slots, batch)?;
    }
    Ok(())
}

fn main() -> Outcome<()> {
    let path = env::args().nth(1).ok_or("write <file>")?;
    let file = fs::File::create(&path)?;
    let log = Mutex::new(Log { file, len: 0 });
    let slots = Tables::new()?.into_slots()?.map(Mutex::new);
    thread::scope(|scope| {
        let threads = [1, 2, 3, 4].map(|region| {
            let (log, slots) = (&log, &slots);
            scope.spawn(move || write_region(log, slots, region))
        });
        threads
            .into_iter()
            .try_for_each(|thread| thread.join().expect("no thread panics"))
    })?;

    let written = fs::read(&path)?;
    let torn = FilePart::new(FILE, &written[..written.len() - 1]);
    let (front, refused) = readable_front(torn)?;
    if let Some(refused) = refused {
        println!("{front} of {} bytes: {refused}", torn.bytes.len());
    }
    let whole = FilePart::new(FILE, &written[..front]);
    print!("{}", recover(&[whole], Queue::Append, 1)?);
    Ok(())
}
