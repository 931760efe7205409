//! Turns, which threads take in the order in which they came.

use super::locks;
use std::sync::{Condvar, Mutex};

/// A lock that goes to the thread that has waited longest. A thread that moves records takes one turn after another; threads that
/// write get in between. A lock of std's might go to the same thread again and again.
#[derive(Debug, Default)]
pub(super) struct Turns {
    line: Mutex<Line>,
    /// Notified when a turn is over.
    is_over: Condvar,
}

/// The turns by their numbers, which are given out in order.
#[derive(Debug, Default)]
struct Line {
    /// The number that the next thread gets which asks for a turn.
    next: u64,
    /// The number of the turn that a thread has, or may take.
    now: u64,
}

/// A turn that a thread has. It is over once this is dropped.
#[derive(Debug)]
pub(super) struct TurnGuard<'a>(&'a Turns);

impl Turns {
    /// Waits for a turn, and takes it: all threads that asked for one before have had theirs. A thread that has one mustn't ask
    /// for another: it would wait for itself.
    pub(super) fn take_turn(&self) -> TurnGuard<'_> {
        let mut line = locks::lock(&self.line);
        let number = line.next;
        line.next += 1;
        while line.now != number {
            line = locks::wait_for_notification(&self.is_over, line);
        }
        TurnGuard(self)
    }
}

impl Drop for TurnGuard<'_> {
    /// Ends the turn, and wakes the threads that wait for theirs.
    fn drop(&mut self) {
        let mut line = locks::lock(&self.0.line);
        line.now += 1;
        let is_awaited = line.now != line.next;
        drop(line);
        if is_awaited {
            self.0.is_over.notify_all();
        }
    }
}
