//! Looks at the folder of an engine without changing it: `look <folder>`. Says what an opening would cut off its files, and
//! why, which batches have damaged entries, how large the files are, and what each region has.

use raft_recover::{Engine, Options, QueueStats};
use std::{env, error::Error};

fn main() -> Result<(), Box<dyn Error>> {
    let folder = env::args().nth(1).ok_or("look <folder>")?;
    let engine = Engine::open_read_only(folder, Options::new())?;
    for cut in engine.recovered().cuts() {
        println!("left out: {cut}");
    }
    for batch in &engine.recovered().damaged {
        println!("kept: {batch}");
    }
    let stats = engine.stats();
    for (queue, stats) in [("append", stats.append), ("rewrite", stats.rewrite)] {
        let QueueStats {
            files,
            bytes,
            records,
            ..
        } = stats;
        println!("{queue} queue: {files} files of {bytes} bytes, with {records} live records");
    }
    for region in engine.regions()? {
        let entries = match (engine.first_index(region)?, engine.last_index(region)?) {
            (Some(first), Some(last)) => format!("entries {first} to {last}"),
            _ => "no entries".to_owned(),
        };
        let keys = engine.summary(region)?.map_or(0, |summary| summary.keys);
        println!("region {region}: {entries}, {keys} keys");
    }
    Ok(())
}
