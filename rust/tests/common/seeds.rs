//! Runs random histories, by their seeds, on all processors.

#![allow(dead_code)]

use std::sync::atomic::{AtomicU64, Ordering::Relaxed};
use std::{env, mem, thread};

/// Returns the number in an environment variable, or `otherwise` where it isn't set. Panics where it has something else.
pub fn number_from_env(variable: &str, otherwise: u64) -> u64 {
    env::var(variable).map_or(otherwise, |text| text.parse().unwrap())
}

/// Calls `run` once with each of `histories` seeds from `first` on, on all processors. Prints the seed of a history that panics,
/// and panics itself once all threads are done.
pub fn run_histories(first: u64, histories: u64, run: impl Fn(u64) + Sync) {
    let next = AtomicU64::new(first);
    let threads = thread::available_parallelism().map_or(1, usize::from);
    thread::scope(|scope| {
        for _ in 0..threads {
            scope.spawn(|| {
                loop {
                    let seed = next.fetch_add(1, Relaxed);
                    if seed >= first + histories {
                        return;
                    }
                    let failed = FailedSeed(seed);
                    run(seed);
                    mem::forget(failed);
                }
            });
        }
    });
}

/// The seed of a history, which is printed if this is dropped: then the history has panicked.
struct FailedSeed(u64);

impl Drop for FailedSeed {
    /// Prints the seed.
    fn drop(&mut self) {
        eprintln!("the history of seed {} failed", self.0);
    }
}
