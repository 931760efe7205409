//! Goes through the phases of an engine over files in memory, whose instructions `make bench-engine` counts:
//! `phases [batches]`. It prints a line for each phase: its name, how many units it had, what a unit is, and how many
//! nanoseconds each took.

use raft_recover::{Engine, LogBatch, MemoryFiles, Options, Result};
use std::time::Instant;
use std::{env, hint};

/// How many regions there are.
const REGIONS: u64 = 100;

/// How many entries a batch has.
const ENTRIES: u64 = 8;

/// How far apart, in positions of a region's entries, two entries are that are read one after the other. It shares no factor with
/// their number, so that each is read once.
const STEP: u64 = 7_919;

/// An engine over files in memory.
type MemoryEngine = Engine<MemoryFiles>;

/// Runs a phase, which returns how many units it had, and prints its line: the name, that number, the unit, and how many
/// nanoseconds each took. Errs, and prints nothing, where the phase does.
fn run_phase(name: &str, unit: &str, phase: impl FnOnce() -> Result<u64>) -> Result<()> {
    let begun = Instant::now();
    let count = phase()?;
    let each = begun.elapsed().as_nanos() / u128::from(count.max(1));
    println!("{name}\t{count}\t{unit}\t{each}");
    Ok(())
}

/// Adds the entries of the batch with this number of a region to `batch`: the first batch is number 0.
fn add_batch_entries(batch: &mut LogBatch, region: u64, number: u64) -> Result<()> {
    batch.add_entries(region, number * ENTRIES + 1, &[[7; 128]; ENTRIES as usize])
}

/// Makes `batches` batches of each region, and writes none.
#[inline(never)]
fn phase_make(batches: u64) -> Result<u64> {
    for number in 0..batches {
        for region in 0..REGIONS {
            let mut batch = LogBatch::new()?;
            add_batch_entries(&mut batch, region, number)?;
            hint::black_box(&batch);
        }
    }
    Ok(batches * REGIONS)
}

/// Makes `batches` batches of each region, and writes each once.
#[inline(never)]
fn phase_write(engine: &MemoryEngine, batches: u64) -> Result<u64> {
    for number in 0..batches {
        for region in 0..REGIONS {
            let mut batch = LogBatch::new()?;
            add_batch_entries(&mut batch, region, number)?;
            engine.write(&mut batch, false)?;
        }
    }
    Ok(batches * REGIONS)
}

/// Fills a single batch again and again, `batches` times for each region, and writes it each time.
#[inline(never)]
fn phase_write_again(engine: &MemoryEngine, batches: u64) -> Result<u64> {
    let mut batch = LogBatch::new()?;
    for number in batches..2 * batches {
        for region in 0..REGIONS {
            add_batch_entries(&mut batch, region, number)?;
            engine.write(&mut batch, false)?;
        }
    }
    Ok(batches * REGIONS)
}

/// Reads all entries of each region in order, each by one call.
#[inline(never)]
fn phase_entry_in_order(engine: &MemoryEngine, entries: u64) -> Result<u64> {
    for region in 0..REGIONS {
        for index in 1..=entries {
            hint::black_box(engine.entry(region, index)?);
        }
    }
    Ok(entries * REGIONS)
}

/// Reads all entries, each by one call, so that no block is still kept when its next entry is read.
#[inline(never)]
fn phase_entry(engine: &MemoryEngine, entries: u64) -> Result<u64> {
    for turn in 0..entries {
        for region in 0..REGIONS {
            hint::black_box(engine.entry(region, turn * STEP % entries + 1)?);
        }
    }
    Ok(entries * REGIONS)
}

/// Reads entries of ten blocks in turn, so that each block is kept. There are as many calls as in the other phases.
#[inline(never)]
fn phase_entry_kept(engine: &MemoryEngine, entries: u64) -> Result<u64> {
    for turn in 0..entries * REGIONS {
        hint::black_box(engine.entry(turn % 10, turn % ENTRIES + 1)?);
    }
    Ok(entries * REGIONS)
}

/// Lends all entries of each region in order, by one call for each region.
#[inline(never)]
fn phase_for_each_entry(engine: &MemoryEngine, entries: u64) -> Result<u64> {
    for region in 0..REGIONS {
        engine.for_each_entry(region, 1..=entries, |_, bytes| {
            hint::black_box(bytes);
        })?;
    }
    Ok(entries * REGIONS)
}

/// Moves all records, those of append file 1, to the rewrite queue. Returns how many entries these are.
#[inline(never)]
fn phase_rewrite(engine: &MemoryEngine, entries: u64) -> Result<u64> {
    engine.rewrite(1)?;
    Ok(entries * REGIONS)
}

/// Runs the phases that read, each of as many calls as there are entries. `which` is added to their names.
fn run_read_phases(engine: &MemoryEngine, entries: u64, which: &str) -> Result<()> {
    run_phase(&format!("entry{which}"), "entry", || {
        phase_entry(engine, entries)
    })?;
    run_phase(&format!("entry{which}, of neighbors"), "entry", || {
        phase_entry_in_order(engine, entries)
    })?;
    run_phase(&format!("for_each_entry{which}"), "entry", || {
        phase_for_each_entry(engine, entries)
    })?;
    run_phase(
        &format!("entry{which}, of ten blocks in turn"),
        "entry",
        || phase_entry_kept(engine, entries),
    )
}

fn main() -> std::result::Result<(), Box<dyn std::error::Error>> {
    let batches = env::args().nth(1).map_or(Ok(10), |word| word.parse())?;
    let entries = 2 * batches * ENTRIES;
    let engine = Engine::with_files(MemoryFiles::new(), Options::new())?;
    run_phase("make", "batch", || phase_make(batches))?;
    run_phase("make and write", "batch", || phase_write(&engine, batches))?;
    run_phase("fill again and write", "batch", || {
        phase_write_again(&engine, batches)
    })?;
    run_read_phases(&engine, entries, "")?;
    engine.rotate()?;
    run_phase("rewrite", "entry", || phase_rewrite(&engine, entries))?;
    run_read_phases(&engine, entries, " of rewritten ones")?;
    Ok(())
}
