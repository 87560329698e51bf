//! A mutex that guards a value, and the guards of its holds.
use crate::library::*;
use std::{
    cell::UnsafeCell,
    fmt,
    ops::{Deref, DerefMut},
    panic::{RefUnwindSafe, UnwindSafe},
    time::{Duration, Instant},
};

/// A mutex that guards a value, shared by reference. It may be a static:
///
/// ```
/// use ligdrosa::Mutex;
///
/// static COUNT: Mutex<u64> = Mutex::new(0);
///
/// fn count() -> Result<u64, ligdrosa::Refusal> {
///     let mut count = COUNT.lock()?;
///     *count += 1;
///     Ok(*count)
/// }
/// # assert_eq!(count(), Ok(1));
/// ```
///
/// Its first lock opens it, which may take memory, as may the first call of a thread. Any thread may call it. A process has
/// 4,095 numbers. Each thread that calls a mutex takes one, and so does each seat in hand. If none is left, these are refused
/// as [`NoSeat`](Refusal::NoSeat). A lock with a time limit that queues takes one more. If half of all are used for that, it
/// tries until its time is over.
///
/// A thread that holds locks once more by its guard, with [`Guard::again`]: the guard of the deeper hold borrows the first. Any
/// other [`lock`](Mutex::lock) or try by that thread is refused as [`Holding`](Refusal::Holding). A guard gives `&mut T`, so a
/// second one that doesn't borrow the first would give another `&mut T` of the same value.
pub struct Mutex<T: ?Sized> {
    pub(crate) raw: Closing,
    pub(crate) value: UnsafeCell<T>,
}

/// The library's mutex, which is closed when it is dropped. If it is held then, since a guard was forgotten, what the library
/// has of it is leaked.
pub(crate) struct Closing(pub RawMutex);

impl Drop for Closing {
    fn drop(&mut self) {
        // SAFETY: there is no other reference to it, so there is no other call.
        unsafe { lfm_mutex_close(&self.0) };
    }
}

// SAFETY: the value is reached through the seat that holds the mutex, of which there is one, or through `&mut` of the mutex.
unsafe impl<T: ?Sized + Send> Sync for Mutex<T> {}

/// A function that `catch_unwind` runs may lock the mutex, as one of `std::sync`. There is no poisoning: if it panics in a
/// hold, the next holder finds the value as the panic left it.
impl<T: ?Sized> UnwindSafe for Mutex<T> {}
impl<T: ?Sized> RefUnwindSafe for Mutex<T> {}

/// A guard of a [`Mutex`]. It stays with its thread:
///
/// ```compile_fail,E0277
/// let mutex = ligdrosa::Mutex::new(0);
/// let guard = mutex.lock().unwrap();
/// std::thread::scope(|scope| drop(scope.spawn(|| drop(guard))));
/// ```
pub type MutexGuard<'a, T> = Guard<'a, T, RawMutex>;

impl<T> Mutex<T> {
    /// A mutex for any threads.
    pub const fn new(value: T) -> Mutex<T> {
        Mutex::with_seats(USUAL_SEATS, value)
    }

    /// The same. The number is 1 to 4,095, and limits nothing. With another its calls are refused as
    /// [`Limit`](Refusal::Limit).
    pub const fn with_seats(seats: u32, value: T) -> Mutex<T> {
        Mutex {
            raw: Closing(RawMutex::with_seats(seats)),
            value: UnsafeCell::new(value),
        }
    }

    /// Returns the value.
    pub fn into_inner(self) -> T {
        self.value.into_inner()
    }
}

impl<T: ?Sized> Mutex<T> {
    /// The value, without a lock: there is no other reference to the mutex.
    pub fn get_mut(&mut self) -> &mut T {
        self.value.get_mut()
    }

    /// For programs that call it: 2^36 times the number of seats that was named.
    pub fn takes_left(&self) -> u64 {
        lfm_takes_left(&self.raw.0)
    }

    /// The guard of a call with this status, if the thread didn't hold before the call.
    #[inline]
    fn guard(&self, status: u32) -> Result<MutexGuard<'_, T>, Refusal> {
        if status == AGAIN {
            self.raw.0.unlock();
            return Err(Refusal::Holding);
        }
        Guard::of(status, &self.raw.0, self)
    }

    /// Acquires the mutex. It first tries a bounded number of times, between pauses and naps, and so may acquire before threads
    /// that called earlier. Then it queues and sleeps, and no thread that queues later is served before it.
    /// Refused: the first call of the mutex as `OtherHeader`, `Limit` or `NoMemory`, and the first one of a thread as `NoMemory`
    /// or `NoSeat`; then `DepthFull` if the thread holds 65,535 times, `Spent`, and `Holding` if it holds.
    #[inline]
    pub fn lock(&self) -> Result<MutexGuard<'_, T>, Refusal> {
        self.guard(self.raw.0.lock())
    }

    /// Locks as [`lock`](Mutex::lock), but queues at once.
    #[inline]
    pub fn lock_in_order(&self) -> Result<MutexGuard<'_, T>, Refusal> {
        self.guard(self.raw.0.lock_in_order())
    }

    /// Acquires the mutex without waiting for a holder, perhaps before seats that are queued. Refused: as `lock`, and `Busy`.
    #[inline]
    pub fn try_lock(&self) -> Result<MutexGuard<'_, T>, Refusal> {
        self.guard(self.raw.0.try_lock())
    }

    /// Locks as [`lock`](Mutex::lock) does, but at most until the time is over. It queues, so other threads that queue don't
    /// keep it from its turn. Refused: as `lock`, and `Busy`. After `Busy` its place may stay in the queue: if its turn has not
    /// come, the thread's next lock waits from there.
    pub fn try_lock_for(&self, time: Duration) -> Result<MutexGuard<'_, T>, Refusal> {
        self.guard(self.raw.0.try_lock_for(nanoseconds(time)))
    }

    /// Locks as `try_lock_for`, at most until this moment.
    pub fn try_lock_until(&self, end: Instant) -> Result<MutexGuard<'_, T>, Refusal> {
        self.try_lock_for(end.saturating_duration_since(Instant::now()))
    }

    /// For programs that call it: a thread has one number for all mutexes, and keeps it until it ends. Refused: `Holding` if
    /// the thread holds.
    pub fn give_seat(&self) -> Result<(), Refusal> {
        match lfm_seat_give_here(&self.raw.0) {
            BLANK => Ok(()),
            status => made(status).map(drop),
        }
    }

    /// In a forked child, makes the mutex new if the thread that forked held it without a [`Seat`](crate::Seat), or if no
    /// thread held it or asked for it: then the call isn't needed. That thread holds it as often as before, and its guards stay valid. If it
    /// held by a seat, it calls [`Guard::after_fork`] instead. In the process that opened the mutex the call does nothing.
    ///
    /// Refused: `NoMemory`, `NoSeat`, and `Busy` if the thread that forked did not hold the mutex, and another one held it,
    /// asked for it or was releasing it.
    ///
    /// # Safety
    ///
    /// - The child makes no other call of the mutex meanwhile. If its thread held the mutex as the parent forked, it has made
    ///   none before, except of the `after_fork` functions.
    /// - After this has succeeded, the child calls a seat in hand, or a guard of one, only after their own `after_fork` has
    ///   succeeded. Without it a seat may be dropped, and a guard may not.
    /// - The child is one of `fork`: the library doesn't see those of `_Fork`, `vfork` and `clone`.
    pub unsafe fn after_fork(&self) -> Result<(), Refusal> {
        // SAFETY: the caller promises it.
        made(unsafe { lfm_after_fork(&self.raw.0, None) }).map(drop)
    }

    /// Returns if the calling thread holds the mutex. It never sleeps.
    ///
    /// # Panics
    ///
    /// If the thread does not hold, or holds only by a [`Seat`](crate::Seat).
    #[track_caller]
    pub fn assert_held(&self) {
        assert!(
            self.raw.0.depth() > 0,
            "the calling thread does not hold the mutex"
        );
    }

    /// A guard of a hold of the calling thread whose guard was forgotten. It makes no call of the library.
    ///
    /// # Safety
    ///
    /// There is such a hold, which no other guard releases, and no reference to the value that another guard gave is used
    /// while this one lives.
    #[inline]
    pub unsafe fn make_guard_unchecked(&self) -> MutexGuard<'_, T> {
        Guard {
            by: &self.raw.0,
            mutex: self,
        }
    }

    /// Releases a hold of the calling thread whose guard was forgotten.
    ///
    /// # Safety
    ///
    /// There is such a hold, and no reference to the value that its guard gave is still used.
    #[inline]
    pub unsafe fn force_unlock(&self) {
        self.raw.0.unlock();
    }
}

impl<T: Default> Default for Mutex<T> {
    fn default() -> Mutex<T> {
        Mutex::new(T::default())
    }
}

impl<T> From<T> for Mutex<T> {
    fn from(value: T) -> Mutex<T> {
        Mutex::new(value)
    }
}

/// Shows the value, if a try acquires the mutex.
impl<T: ?Sized + fmt::Debug> fmt::Debug for Mutex<T> {
    fn fmt(&self, f: &mut fmt::Formatter<'_>) -> fmt::Result {
        let mut shown = f.debug_struct("Mutex");
        match self.try_lock() {
            Ok(guard) => shown.field("data", &&*guard),
            Err(_) => shown.field("data", &format_args!("<locked>")),
        };
        shown.finish_non_exhaustive()
    }
}

/// While a guard lives, its seat holds the mutex. When it is dropped, it releases one hold, also if a panic drops it: then the
/// next holder finds the value as the panic left it, and there is no poisoning. The compiler warns of a guard that is dropped
/// at once:
///
/// ```compile_fail
/// #![deny(unused_must_use)]
/// let mutex = ligdrosa::Mutex::new(0);
/// mutex.lock().unwrap();
/// ```
///
/// `Guard<T>` is the guard of a [`Seat`](crate::Seat), and [`MutexGuard`] that of a [`Mutex`]. The trait `Lock` and the types
/// that have it are private.
#[must_use = "a guard that is dropped at once releases its hold"]
pub struct Guard<'a, T: ?Sized, By: Lock = RawSeat> {
    pub(crate) by: &'a By,
    mutex: &'a Mutex<T>,
}

// SAFETY: a shared guard gives only `&T`, and makes no call.
unsafe impl<T: ?Sized + Sync, By: Lock> Sync for Guard<'_, T, By> {}
// SAFETY: a seat in hand may go on in another thread, which then reaches the value by it.
unsafe impl<T: ?Sized + Send> Send for Guard<'_, T, RawSeat> {}

impl<'a, T: ?Sized, By: Lock> Guard<'a, T, By> {
    /// The guard of a call with this status, or why the call was refused.
    #[inline]
    pub(crate) fn of(
        status: u32,
        by: &'a By,
        mutex: &'a Mutex<T>,
    ) -> Result<Guard<'a, T, By>, Refusal> {
        made(status).map(|_| Guard { by, mutex })
    }

    /// Deepens the hold. Refused: `DepthFull`.
    #[inline]
    pub fn again(&mut self) -> Result<Guard<'_, T, By>, Refusal> {
        Guard::of(self.by.lock(), self.by, self.mutex)
    }

    /// How often the seat holds the mutex.
    pub fn depth(&mut self) -> u64 {
        self.by.depth()
    }

    /// In a forked child, makes the mutex new. The guard's seat holds it as often as before, so this guard and the guards that
    /// it borrows stay valid. Refused: `NoMemory`.
    ///
    /// # Safety
    ///
    /// As for [`Mutex::after_fork`].
    pub unsafe fn after_fork(&mut self) -> Result<(), Refusal> {
        // SAFETY: the caller promises it.
        made(unsafe { lfm_after_fork(&self.mutex.raw.0, self.by.in_hand()) }).map(drop)
    }
}

impl<T: ?Sized, By: Lock> Drop for Guard<'_, T, By> {
    #[inline]
    fn drop(&mut self) {
        self.by.unlock();
    }
}

impl<T: ?Sized, By: Lock> Deref for Guard<'_, T, By> {
    type Target = T;

    #[inline]
    fn deref(&self) -> &T {
        // SAFETY: the seat holds the mutex while the guard lives, so no other seat reaches the value.
        unsafe { &*self.mutex.value.get() }
    }
}

impl<T: ?Sized, By: Lock> DerefMut for Guard<'_, T, By> {
    #[inline]
    fn deref_mut(&mut self) -> &mut T {
        // SAFETY: as for `deref`. A guard of a deeper hold borrows this one.
        unsafe { &mut *self.mutex.value.get() }
    }
}

impl<T: ?Sized + fmt::Debug, By: Lock> fmt::Debug for Guard<'_, T, By> {
    fn fmt(&self, f: &mut fmt::Formatter<'_>) -> fmt::Result {
        (**self).fmt(f)
    }
}

impl<T: ?Sized + fmt::Display, By: Lock> fmt::Display for Guard<'_, T, By> {
    fn fmt(&self, f: &mut fmt::Formatter<'_>) -> fmt::Result {
        (**self).fmt(f)
    }
}
