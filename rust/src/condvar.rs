//! A condition variable.
use crate::{library::*, Guard};
use std::{
    fmt,
    io::{self, Write},
    process,
    time::{Duration, Instant},
};

/// A condition variable for any mutex. It may be a static.
///
/// ```
/// use ligdrosa::{Condvar, Mutex};
///
/// static NUMBERS: Mutex<Vec<u64>> = Mutex::new(Vec::new());
/// static FILLED: Condvar = Condvar::new();
///
/// fn put(number: u64) -> Result<(), ligdrosa::Refusal> {
///     NUMBERS.lock()?.push(number);
///     FILLED.notify_one();
///     Ok(())
/// }
///
/// fn take() -> Result<Option<u64>, ligdrosa::Refusal> {
///     let mut numbers = NUMBERS.lock()?;
///     FILLED.wait_while(&mut numbers, |numbers| numbers.is_empty())?;
///     Ok(numbers.pop())
/// }
/// # put(7).unwrap();
/// # assert_eq!(take(), Ok(Some(7)));
/// ```
///
/// A wait returns only after a call of `notify_one` or `notify_all`, or when its time is over. But another thread may hold the
/// mutex in between, so wait in a loop that tests the condition, as `wait_while` does.
#[derive(Default)]
pub struct Condvar(RawCondvar);

/// Whether a wait ended because its time was over.
#[derive(Clone, Copy, Debug, PartialEq, Eq, Hash)]
pub struct WaitTimeoutResult(bool);

impl WaitTimeoutResult {
    /// Whether the time was over.
    pub fn timed_out(self) -> bool {
        self.0
    }
}

/// The status of a wait that was made, or why it was refused. A wait that is refused as `Spent` has released the mutex. Its
/// guard would give the value without a hold, so the program ends.
fn waited(status: u32) -> Result<u32, Refusal> {
    let told = made(status);
    if told == Err(Refusal::Spent) {
        end_as_spent();
    }
    told
}

#[cold]
fn end_as_spent() -> ! {
    let text = "ligdrosa: a wait can't acquire its mutex again";
    let _ = writeln!(io::stderr(), "{text}: {}", Refusal::Spent);
    process::abort()
}

impl Condvar {
    /// A condition variable at which no thread waits.
    pub const fn new() -> Condvar {
        Condvar(RawCondvar::new())
    }

    /// Releases the mutex, waits until a wake, and acquires the mutex again: as `lock`, or as `lock_in_order` if the wake woke
    /// several threads. Refused: `Nested` if the seat holds more than once, and then the guard holds as before. If the lock is
    /// refused as `Spent`, no guard holds any more, and the program ends with a text.
    pub fn wait<T: ?Sized, By: Lock>(&self, guard: &mut Guard<'_, T, By>) -> Result<(), Refusal> {
        waited(guard.by.wait(&self.0)).map(|_| ())
    }

    /// Waits until the function is false. Refused: as `wait`.
    pub fn wait_while<T: ?Sized, By: Lock>(
        &self,
        guard: &mut Guard<'_, T, By>,
        mut waits: impl FnMut(&mut T) -> bool,
    ) -> Result<(), Refusal> {
        while waits(guard) {
            self.wait(guard)?;
        }
        Ok(())
    }

    /// Waits as `wait`, at most until the time is over. Then it acquires the mutex again too, however long that takes.
    pub fn wait_timeout<T: ?Sized, By: Lock>(
        &self,
        guard: &mut Guard<'_, T, By>,
        time: Duration,
    ) -> Result<WaitTimeoutResult, Refusal> {
        let status = waited(guard.by.wait_for(&self.0, nanoseconds(time)))?;
        Ok(WaitTimeoutResult(status == TIMED_OUT))
    }

    /// Waits as `wait_timeout`, at most until this moment.
    pub fn wait_until<T: ?Sized, By: Lock>(
        &self,
        guard: &mut Guard<'_, T, By>,
        end: Instant,
    ) -> Result<WaitTimeoutResult, Refusal> {
        self.wait_timeout(guard, end.saturating_duration_since(Instant::now()))
    }

    /// Waits as `wait_while`, at most until the time is over. It has timed out if the function is still true then.
    pub fn wait_timeout_while<T: ?Sized, By: Lock>(
        &self,
        guard: &mut Guard<'_, T, By>,
        time: Duration,
        mut waits: impl FnMut(&mut T) -> bool,
    ) -> Result<WaitTimeoutResult, Refusal> {
        let begun = Instant::now();
        while waits(guard) {
            let left = time.saturating_sub(begun.elapsed());
            if self.wait_timeout(guard, left)?.timed_out() {
                return Ok(WaitTimeoutResult(waits(guard)));
            }
        }
        Ok(WaitTimeoutResult(false))
    }

    /// Wakes the thread that has waited longest, and returns whether one waited. The caller may hold the mutex or not. A thread
    /// that acquires the mutex after a wait has released it finds that wait. If no thread waits, a wake is one load.
    #[inline]
    pub fn notify_one(&self) -> bool {
        lfm_wake_one(&self.0) == DONE
    }

    /// Wakes all threads that wait now, and returns whether there was one.
    #[inline]
    pub fn notify_all(&self) -> bool {
        lfm_wake_all(&self.0) == DONE
    }

    /// Wakes as `notify_one`, by a holder. A thread that waits without a time limit is woken when the holder releases the
    /// mutex, so it doesn't find the mutex held. `notify_one` does the same if the caller holds by a [`Mutex`](crate::Mutex),
    /// but it can't find a [`Seat`](crate::Seat) in hand.
    pub fn notify_one_by<T: ?Sized, By: Lock>(&self, holder: &mut Guard<'_, T, By>) -> bool {
        let status = match holder.by.in_hand() {
            Some(seat) => lfm_wake_one_by(&self.0, seat),
            None => lfm_wake_one(&self.0),
        };
        status == DONE
    }

    /// Wakes as `notify_all`, by a holder.
    pub fn notify_all_by<T: ?Sized, By: Lock>(&self, holder: &mut Guard<'_, T, By>) -> bool {
        let status = match holder.by.in_hand() {
            Some(seat) => lfm_wake_all_by(&self.0, seat),
            None => lfm_wake_all(&self.0),
        };
        status == DONE
    }

    /// In a forked child, forgets the threads of the parent that wait, which the child doesn't have. A child calls this before
    /// any other call of this condition variable if other threads of the parent may have waited or been in a call of it.
    ///
    /// # Safety
    ///
    /// The process is a forked child. In it no thread waits at this condition variable, and none makes another call of it
    /// meanwhile.
    pub unsafe fn after_fork(&self) {
        self.0.clear();
    }
}

impl fmt::Debug for Condvar {
    fn fmt(&self, f: &mut fmt::Formatter<'_>) -> fmt::Result {
        f.debug_struct("Condvar").finish_non_exhaustive()
    }
}
