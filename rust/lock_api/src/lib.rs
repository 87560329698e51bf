//! Ligdrosa's mutex with the traits of lock_api, for programs that are generic over mutexes. It is a separate crate, since
//! cargo builds no crate whose dependency it doesn't find, even if that is optional.
//!
//! ```
//! static COUNT: ligdrosa_lock_api::ReentrantMutex<std::cell::Cell<u64>> =
//!     ligdrosa_lock_api::ReentrantMutex::const_new(
//!         lock_api::RawMutex::INIT,
//!         lock_api::GetThreadId::INIT,
//!         std::cell::Cell::new(0),
//!     );
//! let count = COUNT.lock();
//! COUNT.lock().set(count.get() + 1);
//! assert_eq!(count.get(), 1);
//! ```
mod condvar;

pub use condvar::Condvar;
use ligdrosa::Refusal;
pub use ligdrosa::WaitTimeoutResult;
use lock_api::{GetThreadId, GuardNoSend, RawMutexTimed};
use std::{
    io::{self, Write},
    mem,
    num::NonZeroUsize,
    process, ptr,
    time::{Duration, Instant},
};

/// A [`ligdrosa::Mutex`] without a value, whose guards are forgotten.
///
/// A lock that is refused ends the program with a text, for whatever cause. So does a lock by a thread that holds, and so does
/// the end of [`unlocked`](lock_api::MutexGuard::unlocked) if its function has kept or forgotten another guard of the mutex. A
/// lock doesn't panic, since a panic at that end could be caught: then the guard would live on without a hold.
///
/// A `try_lock` that is refused is false, for whatever cause: then `is_locked` is true and `Debug` shows the mutex as locked. A
/// try with a time limit is false if the time is over, or at once if the thread holds. If it is refused for another cause, it
/// panics, and holds are as before.
pub struct RawMutex(ligdrosa::Mutex<()>);

/// A mutex like parking_lot's.
pub type Mutex<T> = lock_api::Mutex<RawMutex, T>;
/// A mutex that a thread may lock again while it holds, and whose guards give `&T`.
pub type ReentrantMutex<T> = lock_api::ReentrantMutex<RawMutex, ThreadId, T>;

/// A guard of a [`Mutex`].
pub type MutexGuard<'a, T> = lock_api::MutexGuard<'a, RawMutex, T>;

fn panic_as_refused(refusal: Refusal) -> ! {
    panic!("ligdrosa refuses a call: {refusal}")
}

/// Ends the program, since `lock` of lock_api's trait can't answer that it was refused.
#[cold]
fn end_as_refused(refusal: Refusal) -> ! {
    let call = match refusal {
        Refusal::Holding => "a thread locks a mutex that it holds already",
        _ => "a lock that may not fail is refused",
    };
    let _ = writeln!(io::stderr(), "ligdrosa: {call}: {refusal}");
    process::abort()
}

/// Whether a try with a time limit acquired the mutex.
fn has_acquired(call: Result<ligdrosa::MutexGuard<'_, ()>, Refusal>) -> bool {
    match call.map(mem::forget) {
        Ok(()) => true,
        Err(Refusal::Busy | Refusal::Holding) => false,
        Err(refusal) => panic_as_refused(refusal),
    }
}

// SAFETY: a ligdrosa mutex has one holder at a time, and its guards stay with their threads. `lock` never unwinds: lock_api
// calls it while a guard lives that has given up its hold, and that guard must hold again or be gone.
unsafe impl lock_api::RawMutex for RawMutex {
    type GuardMarker = GuardNoSend;
    #[allow(clippy::declare_interior_mutable_const)] // each use is another mutex, as lock_api requires
    const INIT: RawMutex = RawMutex(ligdrosa::Mutex::new(()));

    fn lock(&self) {
        if let Err(refusal) = self.0.lock().map(mem::forget) {
            end_as_refused(refusal);
        }
    }

    fn try_lock(&self) -> bool {
        self.0.try_lock().map(mem::forget).is_ok()
    }

    unsafe fn unlock(&self) {
        // SAFETY: the caller holds, and the guard was forgotten.
        unsafe { self.0.force_unlock() }
    }
}

// SAFETY: as for `RawMutex`. A try may unwind: then it has acquired nothing, and lock_api makes it only for a guard to come.
unsafe impl RawMutexTimed for RawMutex {
    type Duration = Duration;
    type Instant = Instant;

    fn try_lock_for(&self, time: Duration) -> bool {
        has_acquired(self.0.try_lock_for(time))
    }

    fn try_lock_until(&self, end: Instant) -> bool {
        has_acquired(self.0.try_lock_until(end))
    }
}

/// Distinguishes threads by the addresses of a thread-local variable.
pub struct ThreadId;

// SAFETY: the variables of two living threads have different addresses, and none is 0.
unsafe impl GetThreadId for ThreadId {
    const INIT: ThreadId = ThreadId;

    fn nonzero_thread_id(&self) -> NonZeroUsize {
        thread_local!(static OWN: u8 = const { 0 });
        OWN.with(|own| NonZeroUsize::new(ptr::from_ref(own) as usize))
            .expect("an address")
    }
}
