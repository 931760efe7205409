//! Recovers the same log files by this repository's library and by raft-engine's own modules, in one process, and compares the
//! tables entry by entry and key by key, or measures both in turns.
//!
//!     one_process compare <workers> <folder of cases>..
//!     one_process time <workers> <rounds> <folder of a log>..
//!
//! A case or a log is a folder with log files and a file `args`: queue, version, and `<number>=<file>` of each.

use raft_engine::peer::adapter::{self, Files};
use raft_recover::{FilePart, LogFile, Queue, Tables, Version, recover};
use std::path::{Path, PathBuf};
use std::time::{Duration, Instant};
use std::{env, fs, process};

/// The files of a case or of a log, in memory.
struct Case {
    queue: Queue,
    version: Version,
    files: Vec<(u64, Vec<u8>)>,
}

impl Case {
    fn read(folder: &Path) -> Case {
        let args = fs::read_to_string(folder.join("args")).expect("a case has its words");
        let mut words = args.split_whitespace();
        let queue = if words.next() == Some("append") {
            Queue::Append
        } else {
            Queue::Rewrite
        };
        let version = if words.next() == Some("2") {
            Version::V2
        } else {
            Version::V1
        };
        let file = |word: &str| {
            let (seq, path) = word.split_once('=').expect("a number and a file");
            (
                seq.parse().expect("a number"),
                fs::read(folder.join(path)).expect("a file"),
            )
        };
        Case {
            queue,
            version,
            files: words.map(file).collect(),
        }
    }

    fn parts(&self) -> Vec<FilePart<'_>> {
        let file = |seq| LogFile {
            queue: self.queue,
            seq,
            version: self.version,
        };
        let files = self.files.iter();
        files
            .map(|(seq, bytes)| FilePart {
                file: file(*seq),
                offset: 0,
                bytes,
            })
            .collect()
    }

    fn theirs(&self, workers: usize) -> Files {
        Files::new(
            self.queue == Queue::Rewrite,
            self.version == Version::V2,
            &self.files,
            workers,
        )
    }
}

/// Returns the entries of a region's table, in the form that the adapter has.
fn entries(tables: &Tables, region: u64) -> Vec<adapter::Entry> {
    let summary = tables.summary(region).expect("a region has a table");
    let first = summary.first_index.unwrap_or_default();
    let range = first..first + summary.entries as u64;
    let found = tables
        .entries(region, range, None)
        .expect("all entries are there");
    let entry = |e: raft_recover::Entry| {
        let file = e.block.file;
        (
            e.index,
            file.queue == Queue::Rewrite,
            file.seq,
            e.block.offset,
            e.block.len,
            e.offset,
            e.len,
        )
    };
    found.into_iter().map(entry).collect()
}

/// Returns in a word what of a region is different; `None` where nothing is.
fn region_difference(ours: &Tables, region: &adapter::Region) -> Option<&'static str> {
    let id = region.id;
    if entries(ours, id) != region.entries {
        return Some("entries");
    }
    let pairs = ours.pairs(id).expect("there is memory");
    let ours_pairs = pairs.iter().map(|pair| (&pair.key, &pair.value));
    if !ours_pairs.eq(region.pairs.iter().map(|(key, value)| (key, value))) {
        return Some("keys");
    }
    let summary = ours.summary(id).expect("a region has a table");
    if (summary.append_seq, summary.rewrite_seq) != (region.append_seq, region.rewrite_seq) {
        return Some("least files");
    }
    None
}

/// Returns in words what is different between the tables; `None` where nothing is. It adds the numbers of entries and keys that
/// it compared to `counted`.
fn difference(
    ours: &Tables,
    theirs: &adapter::Tables,
    counted: &mut (usize, usize),
) -> Option<String> {
    let regions = theirs.regions();
    let ids: Vec<u64> = regions.iter().map(|region| region.id).collect();
    if ours.regions().expect("there is memory") != ids {
        return Some("regions".into());
    }
    for region in &regions {
        if let Some(what) = region_difference(ours, region) {
            return Some(format!("{what} of {}", region.id));
        }
        counted.0 += region.entries.len();
        counted.1 += region.pairs.len();
    }
    let mut cleaned = ours.cleaned();
    cleaned.sort_unstable();
    cleaned.dedup();
    let mut theirs_cleaned = theirs.cleaned();
    theirs_cleaned.dedup();
    if cleaned != theirs_cleaned {
        return Some("cleaned regions".into());
    }
    for (queue, is_rewrite) in [(Queue::Append, false), (Queue::Rewrite, true)] {
        if ours.live(queue) != theirs.live(is_rewrite) {
            return Some(format!("live records of {queue:?}"));
        }
    }
    None
}

/// Compares both recoveries of each case in a folder, prints what is different, and returns in how many cases something is.
fn compare(workers: usize, folder: &Path) -> usize {
    let mut cases: Vec<PathBuf> = fs::read_dir(folder)
        .expect("a folder")
        .map(|e| e.unwrap().path())
        .collect();
    cases.retain(|path| path.join("args").is_file());
    cases.sort();
    let (mut different, mut files, mut counted, mut refused) = (0, 0, (0, 0), 0);
    for path in &cases {
        let case = Case::read(path);
        files += case.files.len();
        let ours = recover(&case.parts(), case.queue, workers);
        let theirs = case.theirs(1).recover();
        let found = match (ours, theirs) {
            (Ok(ours), Ok(theirs)) => difference(&ours, &theirs, &mut counted),
            (Err(_), Err(_)) => {
                refused += 1;
                None
            }
            (Ok(_), Err(e)) => Some(format!("raft-engine alone refused: {e}")),
            (Err(e), Ok(_)) => Some(format!("refused here alone: {e}")),
        };
        if let Some(found) = found {
            different += 1;
            println!("{}: {found}", path.display());
        }
    }
    println!(
        "{}: {} cases, {files} files, {refused} refused by both, {} entries, {} keys, {workers} threads: {different} different",
        folder.display(),
        cases.len(),
        counted.0,
        counted.1
    );
    different
}

/// Returns how many milliseconds of processor time all threads of this process have taken so far.
fn processor_ms() -> u64 {
    let stat = fs::read_to_string("/proc/self/stat").expect("Linux says how long a process ran");
    let fields: Vec<&str> = stat
        .rsplit_once(')')
        .expect("a name in brackets")
        .1
        .split_whitespace()
        .collect();
    let ticks = |i: usize| fields[i].parse::<u64>().expect("a number of ticks");
    (ticks(11) + ticks(12)) * 10
}

/// The times of the rounds of one side: of each round by the clock, and the processor time of all together.
#[derive(Default)]
struct Times {
    walls: Vec<Duration>,
    processor_ms: u64,
}

impl Times {
    /// Makes a recovery, keeps its times, and returns its result.
    fn of<T>(&mut self, recovery: impl FnOnce() -> T) -> T {
        let (start, processor) = (Instant::now(), processor_ms());
        let tables = recovery();
        self.walls.push(start.elapsed());
        self.processor_ms += processor_ms() - processor;
        tables
    }

    /// Returns the shortest time by the clock, in milliseconds.
    fn best(&self) -> f64 {
        self.walls.iter().min().map_or(0.0, Duration::as_secs_f64) * 1e3
    }

    /// Returns the mean processor time of a round, in milliseconds.
    fn processor(&self) -> f64 {
        self.processor_ms as f64 / self.walls.len() as f64
    }
}

/// Makes both recoveries of a log in turns, and prints a row with the best times, the processor times and the ratios.
fn time(workers: usize, rounds: usize, folder: &Path) {
    let case = Case::read(folder);
    let (parts, files) = (case.parts(), case.theirs(workers));
    let (mut ours, mut theirs) = (Times::default(), Times::default());
    for round in 0..rounds {
        let tables = ours.of(|| recover(&parts, case.queue, workers).expect("the log is sound"));
        let others = theirs.of(|| files.recover().expect("the log is sound"));
        if round == 0 && workers == 1 {
            let found = difference(&tables, &others, &mut (0, 0));
            println!(
                "{}: {}",
                folder.display(),
                found.unwrap_or_else(|| "the same tables".into())
            );
        }
    }
    println!(
        "| {} | {workers} | {:.1}, {:.0} ms | {:.1}, {:.0} ms | {:.2} | {:.2} |",
        folder.file_name().unwrap_or_default().display(),
        ours.best(),
        ours.processor(),
        theirs.best(),
        theirs.processor(),
        ours.best() / theirs.best(),
        ours.processor() / theirs.processor()
    );
}

fn main() {
    let words: Vec<String> = env::args().skip(1).collect();
    let number = |i: usize| words.get(i).and_then(|word| word.parse::<usize>().ok());
    match (words.first().map(String::as_str), number(1), number(2)) {
        (Some("compare"), Some(workers), _) => {
            let different: usize = words[2..]
                .iter()
                .map(|word| compare(workers, Path::new(word)))
                .sum();
            process::exit(i32::from(different > 0));
        }
        (Some("time"), Some(workers), Some(rounds)) => {
            words[3..]
                .iter()
                .for_each(|word| time(workers, rounds, Path::new(word)));
        }
        _ => {
            eprintln!(
                "one_process compare <workers> <folder of cases>.. | time <workers> <rounds> <folder of a log>.."
            );
            process::exit(2);
        }
    }
}
