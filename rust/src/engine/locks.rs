//! Takes locks, also those whose holder has panicked: what they guard says itself whether it can still be used.

use std::sync::{
    Condvar, Mutex, MutexGuard, PoisonError, RwLock, RwLockReadGuard, RwLockWriteGuard,
};

/// Locks a mutex, once no other thread has it locked. A poisoned one, whose holder has panicked, is locked too.
pub(super) fn lock<T>(mutex: &Mutex<T>) -> MutexGuard<'_, T> {
    mutex.lock().unwrap_or_else(PoisonError::into_inner)
}

/// Locks `lock` to read what it guards, once no thread has it locked to change that. Several threads may read at a time. A
/// poisoned one is locked too.
pub(super) fn lock_to_read<T>(lock: &RwLock<T>) -> RwLockReadGuard<'_, T> {
    lock.read().unwrap_or_else(PoisonError::into_inner)
}

/// Locks `lock` to change what it guards, once no other thread has it locked. A poisoned one is locked too.
pub(super) fn lock_to_change<T>(lock: &RwLock<T>) -> RwLockWriteGuard<'_, T> {
    lock.write().unwrap_or_else(PoisonError::into_inner)
}

/// Unlocks the mutex of `guard`, waits until `notified` is notified, and returns the mutex locked again, a poisoned one
/// too. It may also return without a notification.
pub(super) fn wait_for_notification<'a, T>(
    notified: &Condvar,
    guard: MutexGuard<'a, T>,
) -> MutexGuard<'a, T> {
    notified.wait(guard).unwrap_or_else(PoisonError::into_inner)
}
