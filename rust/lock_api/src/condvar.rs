//! A condition variable for lock_api's mutexes over this raw mutex.
use crate::{panic_as_refused, MutexGuard};
use ligdrosa::{Refusal, WaitTimeoutResult};
use std::{
    mem::ManuallyDrop,
    time::{Duration, Instant},
};

/// A condition variable for any [`Mutex`](crate::Mutex), as parking_lot's, by a [`ligdrosa::Condvar`]. A wait returns only
/// after a wake or when its time is over, but another thread may hold the mutex in between, so wait in a loop, as
/// `wait_while` does. A wait that is refused panics, and then the thread holds as before. If the mutex can't be acquired again,
/// the program ends, as [`ligdrosa::Condvar::wait`] says. [`ReentrantMutex`](crate::ReentrantMutex) has no waits.
///
/// ```
/// use ligdrosa_lock_api::{Condvar, Mutex};
///
/// let (is_ready, ready) = (Mutex::new(false), Condvar::new());
/// std::thread::scope(|scope| {
///     scope.spawn(|| {
///         *is_ready.lock() = true;
///         ready.notify_one();
///     });
///     ready.wait_while(&mut is_ready.lock(), |is_ready| !*is_ready);
/// });
/// ```
#[derive(Debug, Default)]
pub struct Condvar(ligdrosa::Condvar);

/// Makes a wait by the hold of this guard.
fn wait_by<T: ?Sized, A>(
    guard: &mut MutexGuard<'_, T>,
    wait: impl FnOnce(&mut ligdrosa::MutexGuard<'_, ()>) -> Result<A, Refusal>,
) -> A {
    // SAFETY: the raw mutex is not unlocked, except by the wait, which acquires it again.
    let raw = unsafe { MutexGuard::mutex(guard).raw() };
    // SAFETY: the thread holds, and the raw mutex has forgotten the guard of that hold. This one is never dropped.
    let mut hold = ManuallyDrop::new(unsafe { raw.0.make_guard_unchecked() });
    wait(&mut hold).unwrap_or_else(|refusal| panic_as_refused(refusal))
}

impl Condvar {
    /// A condition variable at which no thread waits.
    pub const fn new() -> Condvar {
        Condvar(ligdrosa::Condvar::new())
    }

    /// Releases the mutex, waits until a wake, and acquires the mutex again.
    pub fn wait<T: ?Sized>(&self, guard: &mut MutexGuard<'_, T>) {
        wait_by(guard, |hold| self.0.wait(hold));
    }

    /// Waits until the function is false.
    pub fn wait_while<T: ?Sized>(
        &self,
        guard: &mut MutexGuard<'_, T>,
        mut waits: impl FnMut(&mut T) -> bool,
    ) {
        while waits(guard) {
            self.wait(guard);
        }
    }

    /// Waits as `wait`, at most until the time is over. Then it acquires the mutex again too, however long that takes.
    pub fn wait_for<T: ?Sized>(
        &self,
        guard: &mut MutexGuard<'_, T>,
        time: Duration,
    ) -> WaitTimeoutResult {
        wait_by(guard, |hold| self.0.wait_timeout(hold, time))
    }

    /// Waits as `wait_for`, at most until this moment.
    pub fn wait_until<T: ?Sized>(
        &self,
        guard: &mut MutexGuard<'_, T>,
        end: Instant,
    ) -> WaitTimeoutResult {
        wait_by(guard, |hold| self.0.wait_until(hold, end))
    }

    /// Wakes the thread that has waited longest, and returns whether one waited. If the caller holds, a thread that waits
    /// without a time limit is woken when the caller releases the mutex.
    pub fn notify_one(&self) -> bool {
        self.0.notify_one()
    }

    /// Wakes all threads that wait now, and returns whether there was one.
    pub fn notify_all(&self) -> bool {
        self.0.notify_all()
    }
}
