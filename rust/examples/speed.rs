//! Times an engine in a new folder, which it makes: `speed <folder> [rounds] [megabytes]`. It prints the best of all rounds.
//!
//! A round writes batches of eight entries of 128 bytes and a key, each by one call, for half a second: without and with a sync,
//! from one thread and from four; and it appends as many bytes as such a batch has to a file, each time by one call. Then it
//! recovers a log of so many megabytes from memory, and opens its folder, on 1, 2 and 4 threads. At last it reads entries of the
//! log by one call each, of ten blocks in turn and of a hundred regions in order, and writes while another thread purges the log,
//! which moves half of it.

use raft_recover::{Engine, FilePart, LogBatch, LogFile, Options, Queue, Result, recover};
use std::io::{self, Write};
use std::time::{Duration, Instant};
use std::{env, fs, path::Path, thread};

/// For how long calls are repeated to measure their time.
const HALF_A_SECOND: Duration = Duration::from_millis(500);

/// How many threads write, and whether they sync each batch.
const WRITING: [(u64, bool); 4] = [(1, false), (4, false), (1, true), (4, true)];

/// How many threads read a log.
const READING: [usize; 3] = [1, 2, 4];

/// Makes a batch of a region: eight entries of 128 bytes, the first of them at the index `first`, and a key with the last index.
fn new_batch(region: u64, first: u64) -> Result<LogBatch> {
    let mut batch = LogBatch::new()?;
    batch.add_entries(region, first, &[[7; 128]; 8])?;
    batch.put(region, b"last", &(first + 7).to_le_bytes())?;
    Ok(batch)
}

/// Returns how many bytes a batch of `new_batch` has in a file.
fn encoded_len() -> Result<usize> {
    let mut batch = new_batch(1, 1)?;
    batch.finish()
}

/// Writes batches to a new folder from so many threads for half a second, each with a sync if `sync`. Returns how many batches a
/// second that were, and how many shared a sync on average.
fn time_writes(folder: &Path, threads: u64, sync: bool) -> Result<(f64, f64)> {
    let engine = Engine::open(folder, Options::new())?;
    let begun = Instant::now();
    thread::scope(|scope| {
        let write = |region| -> Result<()> {
            let mut first = engine.last_index(region)?.map_or(1, |last| last + 1);
            while begun.elapsed() < HALF_A_SECOND {
                engine.write(&mut new_batch(region, first)?, sync)?;
                first += 8;
            }
            Ok(())
        };
        let writing: Vec<_> = (0..threads)
            .map(|region| scope.spawn(move || write(region)))
            .collect();
        let mut results = writing
            .into_iter()
            .map(|thread| thread.join().expect("no panic"));
        results.try_for_each(|result| result)
    })?;
    let (stats, seconds) = (engine.stats(), begun.elapsed().as_secs_f64());
    let batches = stats.batches as f64;
    Ok((batches / seconds, batches / stats.syncs as f64))
}

/// Appends `len` bytes to a new file again and again for half a second, without a sync, and returns how often a second that was.
fn time_appends(path: &Path, len: usize) -> io::Result<f64> {
    let (mut file, bytes) = (fs::File::create_new(path)?, vec![7; len]);
    let (begun, mut count) = (Instant::now(), 0.0);
    while begun.elapsed() < HALF_A_SECOND {
        file.write_all(&bytes)?;
        count += 1.0;
    }
    Ok(count / begun.elapsed().as_secs_f64())
}

/// Writes batches of a thousand regions to a new folder until its append files have `bytes` bytes, and syncs them.
fn fill_folder(folder: &Path, bytes: u64) -> Result<()> {
    let engine = Engine::open(folder, Options::new())?;
    for n in 0.. {
        engine.write(&mut new_batch(n % 1000, n / 1000 * 8 + 1)?, false)?;
        if engine.stats().append.bytes >= bytes {
            break;
        }
    }
    engine.sync()
}

/// Reads the append files of a folder into memory, and returns each with its bytes, oldest first.
fn read_append_files(folder: &Path) -> Result<Vec<(LogFile, Vec<u8>)>> {
    let engine = Engine::open(folder, Options::new())?;
    let mut files = Vec::new();
    let append = engine.stats().append;
    for seq in append.first_file..=append.last_file {
        let file = LogFile::new(Queue::Append, seq, engine.options().version);
        let path = engine.files().path_of(file.into());
        files.push((file, fs::read(path).expect("a file of the folder")));
    }
    Ok(files)
}

/// Reads entries, given as region and index, each by one call, and returns how many nanoseconds a call takes.
fn time_reads(engine: &Engine, entries: impl Iterator<Item = (u64, u64)>) -> Result<f64> {
    let (begun, mut count) = (Instant::now(), 0.0);
    for (region, index) in entries {
        engine.entry(region, index)?.expect("it was written");
        count += 1.0;
    }
    Ok(begun.elapsed().as_secs_f64() * 1e9 / count)
}

/// Returns how many nanoseconds it takes to read an entry: of ten blocks that are read in turn, so that they are kept, and of a
/// hundred regions that are read in order. Each is the best of so many rounds.
fn time_all_reads(log: &Path, rounds: u64) -> Result<[f64; 2]> {
    let engine = Engine::open(log, Options::new())?;
    let mut indexes = Vec::new();
    for region in 0..100 {
        let last = engine.last_index(region)?.expect("it was written");
        indexes.extend((1..=last).map(|index| (region, index)));
    }
    let mut best = [f64::MAX; 2];
    for _ in 0..rounds {
        let kept = time_reads(&engine, (0..100_000).map(|n| (n % 10, n % 8 + 1)))?;
        let in_order = time_reads(&engine, indexes.iter().copied())?;
        best = [best[0].min(kept), best[1].min(in_order)];
    }
    Ok(best)
}

/// Writes to a log of `bytes` bytes while another thread purges it. Returns how many milliseconds the longest write took, and how
/// many writes there were.
fn time_writes_beside_purge(log: &Path, bytes: u64) -> Result<(f64, u64)> {
    let engine = Engine::open(log, Options::new().purge_above(bytes / 2))?;
    engine.rotate()?;
    let (mut longest, mut count) = (0.0, 0);
    thread::scope(|scope| {
        let purge = scope.spawn(|| engine.purge());
        while !purge.is_finished() {
            let mut batch = new_batch(1000, 8 * count + 1)?;
            let took = time_call(|| engine.write(&mut batch, false))?;
            longest = took.max(longest);
            count += 1;
        }
        purge.join().expect("no panic")?;
        Ok((longest, count))
    })
}

/// Makes a call, and returns how many milliseconds it took.
fn time_call<T>(call: impl FnOnce() -> Result<T>) -> Result<f64> {
    let begun = Instant::now();
    let answer = call()?;
    let time = begun.elapsed().as_secs_f64() * 1e3;
    drop(answer);
    Ok(time)
}

fn main() -> std::result::Result<(), Box<dyn std::error::Error>> {
    let words: Vec<_> = env::args().collect();
    let folder = Path::new(words.get(1).ok_or("speed <folder> [rounds] [megabytes]")?);
    let number = |i: usize, otherwise| words.get(i).map_or(Ok(otherwise), |word| word.parse());
    let rounds = number(2, 5)?;
    fs::create_dir(folder)?;
    let log = folder.join("log");
    let bytes = number(3, 200)? << 20;
    fill_folder(&log, bytes)?;
    let files = read_append_files(&log)?;
    let parts: Vec<_> = cut_files(&files);
    let len = encoded_len()?;
    let (mut written, mut appended) = ([(0.0, 0.0); 4], 0.0);
    let (mut recovered, mut opened) = ([f64::MAX; 3], [f64::MAX; 3]);
    for round in 0..rounds {
        for (best, (threads, sync)) in written.iter_mut().zip(WRITING) {
            let path = folder.join(format!("{round}-{threads}-{sync}"));
            let now = time_writes(&path, threads, sync)?;
            fs::remove_dir_all(path)?;
            if now.0 > best.0 {
                *best = now;
            }
        }
        let path = folder.join(format!("{round}-plain"));
        appended = time_appends(&path, len)?.max(appended);
        fs::remove_file(path)?;
        for (i, threads) in READING.into_iter().enumerate() {
            let now = time_call(|| recover(&parts, Queue::Append, threads))?;
            recovered[i] = now.min(recovered[i]);
            let options = Options::new().recovery_threads(threads);
            opened[i] = time_call(|| Engine::open(&log, options))?.min(opened[i]);
        }
    }
    for ((threads, sync), (rate, share)) in WRITING.into_iter().zip(written) {
        let share = sync.then(|| format!(", {share:.1} a sync"));
        let share = share.unwrap_or_default();
        println!("{threads} threads, sync {sync}: {rate:.0} batches a second{share}");
    }
    println!(
        "{len} bytes, as many as a batch has, appended to a file: {appended:.0} times a second"
    );
    for (i, threads) in READING.into_iter().enumerate() {
        let (recovered, opened) = (recovered[i], opened[i]);
        println!("{threads} threads: recovered in {recovered:.0} ms, opened in {opened:.0} ms");
    }
    let [kept, in_order] = time_all_reads(&log, rounds)?;
    println!("an entry of blocks in turn: {kept:.0} ns, of regions in order: {in_order:.0} ns");
    let (longest, count) = time_writes_beside_purge(&log, bytes)?;
    println!("the longest of {count} writes beside a purge: {longest:.1} ms");
    Ok(())
}

/// Cuts files between batches, into parts of a megabyte or more, but for the last part of each.
fn cut_files(files: &[(LogFile, Vec<u8>)]) -> Vec<FilePart<'_>> {
    let mut parts = Vec::new();
    for (file, bytes) in files {
        let (mut from, mut at) = (0, 0);
        while let Some(len) = raft_recover::batch_len(&bytes[at..]) {
            at += len;
            if at - from >= 1 << 20 || at == bytes.len() {
                let (offset, bytes) = (from as u64, &bytes[from..at]);
                parts.push(FilePart {
                    offset,
                    bytes,
                    ..FilePart::new(*file, bytes)
                });
                from = at;
            }
        }
    }
    parts
}
