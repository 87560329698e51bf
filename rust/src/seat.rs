//! Seats in hand, for programs that want no thread-local memory.
use crate::{library::*, Guard, Mutex};
use std::{
    ffi::c_int,
    fmt,
    ptr::NonNull,
    sync::Arc,
    time::{Duration, Instant},
};

/// A seat of a mutex, by which one thread at a time calls it. A seat that is dropped is given back. If it holds, since a guard
/// was forgotten, it is leaked, and no other seat acquires the mutex any more. Each seat has a number of its own, of the 4,095
/// that the threads of a process have.
///
/// A seat is `Send` and not `Sync`, and a [`Guard`] borrows it. So a seat is in one call at a time:
///
/// ```compile_fail,E0277
/// fn share<T: Sync>(_: T) {}
/// share(ligdrosa::mutex(1, 1, ()).unwrap());
/// ```
pub struct Seat<T: ?Sized> {
    /// A box, since ligdrosa.h promises nothing of a taken seat that is moved.
    raw: NonNull<RawSeat>,
    mutex: Arc<Mutex<T>>,
}

// SAFETY: any thread may call a seat, one at a time. They share the value as references to the mutex do.
unsafe impl<T: ?Sized + Send> Send for Seat<T> {}

/// Makes a mutex that guards the value, and returns this many seats, 1 to 4,095. [`Mutex::seat`] takes more. The budget is 1 to
/// 2^36, and limits nothing. Refused: `OtherHeader`, `Limit`, `NoMemory`, `NoSeat`.
pub fn mutex<T: Send>(seats: usize, budget: u64, value: T) -> Result<Vec<Seat<T>>, Refusal> {
    let mutex = Arc::new(Mutex::new(value));
    // SAFETY: there is no other reference to the mutex.
    made(unsafe { lfm_mutex_open(&mutex.raw.0, seats as u64, budget, VERSION as c_int) })?;
    (0..seats).map(|_| mutex.seat()).collect()
}

impl<T: ?Sized> Mutex<T> {
    /// Takes a seat in hand. If a thread holds by it and locks by the mutex, it waits for itself, since the seat is not the
    /// thread. Refused: `OtherHeader`, `Limit` and `NoMemory` if the call opens the mutex, and then `NoMemory` and `NoSeat`.
    pub fn seat(self: &Arc<Mutex<T>>) -> Result<Seat<T>, Refusal> {
        let seat = Seat {
            raw: NonNull::from(Box::leak(Box::default())),
            mutex: self.clone(),
        };
        // SAFETY: the seat is not moved, and is given back when it is dropped.
        made(unsafe { lfm_seat_take(&self.raw.0, seat.raw()) })?;
        Ok(seat)
    }
}

impl<T: ?Sized> Seat<T> {
    /// The library's seat.
    #[inline]
    fn raw(&self) -> &RawSeat {
        // SAFETY: the box is freed when the seat is dropped.
        unsafe { self.raw.as_ref() }
    }

    /// The guard of a call with this status, or why the call was refused.
    #[inline]
    fn guard(&mut self, status: u32) -> Result<Guard<'_, T>, Refusal> {
        Guard::of(status, self.raw(), &self.mutex)
    }

    /// The mutex.
    pub fn mutex(&self) -> &Arc<Mutex<T>> {
        &self.mutex
    }

    /// The seat's number, 1 to 4,095. No two seats that are taken have the same.
    pub fn number(&self) -> u64 {
        lfm_number(self.raw())
    }

    /// For programs that call it: 2^36.
    pub fn left(&self) -> u64 {
        lfm_left(self.raw())
    }

    /// Acquires the mutex as [`Mutex::lock`]. Refused: `DepthFull` if guards were forgotten, and `Spent`.
    #[inline]
    pub fn lock(&mut self) -> Result<Guard<'_, T>, Refusal> {
        self.guard(self.raw().lock())
    }

    /// Locks as [`lock`](Seat::lock), but queues at once.
    #[inline]
    pub fn lock_in_order(&mut self) -> Result<Guard<'_, T>, Refusal> {
        self.guard(self.raw().lock_in_order())
    }

    /// Acquires the mutex without waiting for a holder, perhaps before seats that are queued. Refused: as `lock`, and `Busy`.
    #[inline]
    pub fn try_lock(&mut self) -> Result<Guard<'_, T>, Refusal> {
        self.guard(self.raw().try_lock())
    }

    /// Locks as [`Mutex::try_lock_for`], at most until the time is over.
    pub fn try_lock_for(&mut self, time: Duration) -> Result<Guard<'_, T>, Refusal> {
        self.guard(self.raw().try_lock_for(nanoseconds(time)))
    }

    /// Locks as `try_lock_for`, at most until this moment.
    pub fn try_lock_until(&mut self, end: Instant) -> Result<Guard<'_, T>, Refusal> {
        self.try_lock_for(end.saturating_duration_since(Instant::now()))
    }

    /// In a forked child, makes the mutex new as [`Mutex::after_fork`] does, if no thread held it or asked for it when the parent
    /// forked, or if this seat held it and its guard was forgotten. If the mutex is new already, by an `after_fork` of the mutex, a guard or
    /// another seat, this seat is taken anew, and gets another number.
    ///
    /// Refused: as [`Mutex::after_fork`]. After `NoSeat` other calls of this seat are refused as `Other`.
    ///
    /// # Safety
    ///
    /// As for [`Mutex::after_fork`].
    pub unsafe fn after_fork(&mut self) -> Result<(), Refusal> {
        let (mutex, seat) = (&self.mutex.raw.0, self.raw());
        // SAFETY: the caller promises it.
        let status = unsafe { lfm_after_fork(mutex, Some(seat)) };
        if status != FOREIGN && status != BLANK {
            return made(status).map(drop);
        }
        // SAFETY: the library has forgotten the seat. It is not moved, and is given back when it is dropped.
        made(unsafe {
            self.raw.write(RawSeat::default());
            lfm_seat_take(mutex, self.raw.as_ref())
        })
        .map(drop)
    }
}

impl<T: ?Sized> Drop for Seat<T> {
    fn drop(&mut self) {
        // A seat that holds stays taken, and its memory is leaked with it. A seat that was never taken answers `BLANK`.
        if matches!(lfm_seat_give(self.raw()), DONE | BLANK) {
            // SAFETY: the library has no reference to the seat, and this was the last one.
            drop(unsafe { Box::from_raw(self.raw.as_ptr()) });
        }
    }
}

impl<T: ?Sized> fmt::Debug for Seat<T> {
    fn fmt(&self, f: &mut fmt::Formatter<'_>) -> fmt::Result {
        f.debug_struct("Seat")
            .field("number", &self.number())
            .field("left", &self.left())
            .finish_non_exhaustive()
    }
}
