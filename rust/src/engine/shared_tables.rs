//! The tables of an engine, which its threads share.

use super::locks;
use crate::sys::EngineHandle;
use std::sync::atomic::{AtomicUsize, Ordering};
use std::sync::{Mutex, MutexGuard, TryLockError};
use std::thread;
use std::time::{Duration, Instant};

/// How long at most a thread that locks the tables again and again waits for other threads to lock them. A sleeping thread may
/// take some hundred microseconds to wake up.
const PATIENCE: Duration = Duration::from_millis(2);

/// The tables behind a lock, which a thread has for a single call.
#[derive(Debug)]
pub(super) struct SharedTables {
    tables: Mutex<EngineHandle>,
    /// How many threads sleep until they get the lock.
    waiting: AtomicUsize,
}

impl SharedTables {
    /// Puts `tables` behind a lock that no thread has.
    pub(super) fn new(tables: EngineHandle) -> SharedTables {
        SharedTables {
            tables: Mutex::new(tables),
            waiting: AtomicUsize::new(0),
        }
    }

    /// Locks the tables, once no other thread has them locked.
    #[inline]
    pub(super) fn lock(&self) -> MutexGuard<'_, EngineHandle> {
        match self.tables.try_lock() {
            Ok(tables) => tables,
            Err(TryLockError::Poisoned(poisoned)) => poisoned.into_inner(),
            Err(TryLockError::WouldBlock) => self.wait_for_lock(),
        }
    }

    /// Locks the tables as [`SharedTables::lock`] does, and counts this thread as waiting until it has them.
    #[cold]
    fn wait_for_lock(&self) -> MutexGuard<'_, EngineHandle> {
        self.waiting.fetch_add(1, Ordering::Relaxed);
        let tables = locks::lock(&self.tables);
        self.waiting.fetch_sub(1, Ordering::Relaxed);
        tables
    }

    /// Locks the tables once the threads that wait for them have had them, but waits no longer than [`PATIENCE`]. It is for a
    /// thread that locks them for one region after another: a lock of std's may go to the same thread again and again.
    pub(super) fn lock_after_waiters(&self) -> MutexGuard<'_, EngineHandle> {
        if self.waiting.load(Ordering::Relaxed) > 0 {
            let begun = Instant::now();
            while self.waiting.load(Ordering::Relaxed) > 0 && begun.elapsed() < PATIENCE {
                thread::yield_now();
            }
        }
        self.lock()
    }
}
