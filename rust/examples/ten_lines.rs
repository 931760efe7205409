//! Writes entries to a folder until it is killed, and says how many it found there: `ten_lines <folder>`.

use raft_recover::{Engine, LogBatch, Options};
use std::{env, error::Error};

fn main() -> Result<(), Box<dyn Error>> {
    let folder = env::args().nth(1).ok_or("ten_lines <folder>")?;
    let engine = Engine::open(folder, Options::new())?;
    println!("found {}", engine.entries(7, ..)?.len());
    let mut batch = LogBatch::new()?;
    for index in engine.last_index(7)?.map_or(1, |last| last + 1).. {
        batch.add_entries(7, index, &[format!("entry {index}")])?;
        engine.write(&mut batch, true)?;
        println!("wrote {index}");
    }
    Ok(())
}
