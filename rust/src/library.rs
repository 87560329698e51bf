//! The calls of ligdrosa.h, and what they answer.
use std::{
    cell::UnsafeCell,
    ffi::{c_char, c_int, CStr},
    fmt, ptr,
    sync::atomic::{AtomicPtr, AtomicU32, AtomicU64, Ordering},
    time::Duration,
};

// a script writes the numbers from here
/// The version of the header.
pub const VERSION: u32 = 100;
/// How many seats a mutex names if the program gives no number.
pub const USUAL_SEATS: u32 = 64;
pub const DONE: u32 = 0;
pub const AGAIN: u32 = 1;
pub const TIMED_OUT: u32 = 7;
/// The first of the statuses that give the cause of a refusal.
pub const BLANK: u32 = 16;
pub const FOREIGN: u32 = 23;

/// Why a call was refused. A refused call has changed nothing, unless its text names an effect; but it may have opened the
/// mutex and taken the thread's number.
#[derive(Clone, Copy, Debug, PartialEq, Eq, Hash)]
#[non_exhaustive]
pub enum Refusal {
    /// Not 1 to 4,095 seats, or not a budget of 1 to 2^36.
    Limit = 18,
    /// Memory was refused to the library, or 16,776,704 mutexes are open. If memory is refused to this crate, the program ends,
    /// as elsewhere in Rust.
    NoMemory = 19,
    /// Threads, seats in hand and locks with a time limit have all 4,095 numbers of the process.
    NoSeat = 20,
    /// The calling thread holds the mutex already, by another guard.
    Holding = 22,
    /// The library is of another version than this crate.
    OtherHeader = 24,
    /// The seat holds more than once, and a wait releases only one hold.
    Nested = 34,
    /// The seat holds 65,535 times already.
    DepthFull = 35,
    /// The mutex has had 2^48 - 2^13 queued locks, or the seat's number 2^47 posts, which at a million a second takes four
    /// years.
    Spent = 36,
    /// At some moment of the call another seat held the mutex, asked for it or was releasing it. For a call with a time limit,
    /// the time is over.
    Busy = 39,
    /// A status by which the library refuses no call of this crate.
    Other = 255,
}
// to here

impl Refusal {
    /// The refusals that have a status.
    const ALL: [Refusal; 9] = {
        use Refusal::*;
        [
            Limit,
            NoMemory,
            NoSeat,
            Holding,
            OtherHeader,
            Nested,
            DepthFull,
            Spent,
            Busy,
        ]
    };

    /// The refusal of this status.
    #[cold]
    #[inline(never)]
    fn of(status: u32) -> Refusal {
        let mut all = Refusal::ALL.into_iter();
        all.find(|refusal| *refusal as u32 == status)
            .unwrap_or(Refusal::Other)
    }
}

impl fmt::Display for Refusal {
    fn fmt(&self, f: &mut fmt::Formatter<'_>) -> fmt::Result {
        // SAFETY: the library has a text for each number, which ends with a zero and never changes.
        let text = unsafe { CStr::from_ptr(lfm_status_text(*self as u32)) };
        f.pad(&text.to_string_lossy())
    }
}

impl std::error::Error for Refusal {}

/// The status of a call that was made, or why it was refused.
#[inline]
pub fn made(status: u32) -> Result<u32, Refusal> {
    if status < BLANK {
        Ok(status)
    } else {
        Err(Refusal::of(status))
    }
}

/// An lfm_mutex. The library has no reference to it, so it may be moved between calls. `core` is no address.
#[repr(C)]
pub struct RawMutex {
    core: AtomicPtr<u8>,
    seats: AtomicU32,
    version: AtomicU32,
}

impl RawMutex {
    /// The value of LFM_MUTEX_INIT_WITH.
    pub const fn with_seats(seats: u32) -> RawMutex {
        RawMutex {
            core: AtomicPtr::new(ptr::null_mut()),
            seats: AtomicU32::new(seats),
            version: AtomicU32::new(VERSION),
        }
    }
}

/// An lfm_seat. It isn't `Sync`, and a shared guard makes no call with it. So it is in one call at a time.
#[derive(Default)]
#[repr(C, align(16))]
pub struct RawSeat(UnsafeCell<[[u64; 16]; 2]>);

/// An lfm_condvar. Only waits refer to it, so it may be moved while there are none.
#[derive(Default)]
#[repr(C)]
pub struct RawCondvar([AtomicU64; 4]);

impl RawCondvar {
    /// A condition variable at which no thread waits.
    pub const fn new() -> RawCondvar {
        RawCondvar([const { AtomicU64::new(0) }; 4])
    }

    /// Forgets the threads that wait.
    pub fn clear(&self) {
        for word in &self.0 {
            word.store(0, Ordering::Relaxed);
        }
    }
}

// SAFETY: the header declares them with these types. Those that aren't `safe` require more than valid references: a mutex is
// opened, closed and made new while no other call of it is made, and a seat that was taken is not moved until it is given back.
unsafe extern "C" {
    safe fn lfm_status_text(status: u32) -> *const c_char;
    pub fn lfm_mutex_open(mutex: &RawMutex, seats: u64, budget: u64, version: c_int) -> u32;
    pub fn lfm_mutex_close(mutex: &RawMutex) -> u32;
    pub safe fn lfm_takes_left(mutex: &RawMutex) -> u64;
    pub fn lfm_after_fork(mutex: &RawMutex, seat: Option<&RawSeat>) -> u32;
    pub fn lfm_seat_take(mutex: &RawMutex, seat: &RawSeat) -> u32;
    pub safe fn lfm_seat_give(seat: &RawSeat) -> u32;
    pub safe fn lfm_seat_give_here(mutex: &RawMutex) -> u32;
    pub safe fn lfm_number(seat: &RawSeat) -> u64;
    pub safe fn lfm_left(seat: &RawSeat) -> u64;
    pub safe fn lfm_wake_one(condvar: &RawCondvar) -> u32;
    pub safe fn lfm_wake_all(condvar: &RawCondvar) -> u32;
    pub safe fn lfm_wake_one_by(condvar: &RawCondvar, seat: &RawSeat) -> u32;
    pub safe fn lfm_wake_all_by(condvar: &RawCondvar, seat: &RawSeat) -> u32;
}

/// The time in nanoseconds, or the most that the library takes, which is more than 500 years.
pub fn nanoseconds(time: Duration) -> u64 {
    u64::try_from(time.as_nanos()).unwrap_or(u64::MAX)
}

/// Declares calls that the library has in two forms: with a seat in hand, and by the calling thread for a mutex. Each
/// is a method of both. C passes the argument in brackets before the seat or mutex.
macro_rules! calls {
    ($(fn $name:ident $([$first:ident: $of:ty])? (self $(, $last:ident: $kind:ty)?) -> $told:ty
        = $in_hand:ident, $here:ident;)*) => {
        // SAFETY: the header declares them with these types.
        unsafe extern "C" {
            $(safe fn $in_hand($($first: $of,)? seat: &RawSeat $(, $last: $kind)?) -> $told;
            safe fn $here($($first: $of,)? mutex: &RawMutex $(, $last: $kind)?) -> $told;)*
        }

        /// What a guard locks with: a seat in hand, or a mutex, which stands for the calling thread.
        pub trait Lock {
            /// The seat in hand.
            fn in_hand(&self) -> Option<&RawSeat> {
                None
            }
            $(fn $name(&self $(, $first: $of)? $(, $last: $kind)?) -> $told;)*
        }

        impl Lock for RawSeat {
            fn in_hand(&self) -> Option<&RawSeat> {
                Some(self)
            }
            $(#[inline]
            fn $name(&self $(, $first: $of)? $(, $last: $kind)?) -> $told {
                $in_hand($($first,)? self $(, $last)?)
            })*
        }

        impl Lock for RawMutex {
            $(#[inline]
            fn $name(&self $(, $first: $of)? $(, $last: $kind)?) -> $told {
                $here($($first,)? self $(, $last)?)
            })*
        }
    };
}

calls! {
    fn lock(self) -> u32 = lfm_lock, lfm_lock_here;
    fn lock_in_order(self) -> u32 = lfm_lock_in_order, lfm_lock_in_order_here;
    fn try_lock(self) -> u32 = lfm_try_lock, lfm_try_lock_here;
    fn try_lock_for(self, nanoseconds: u64) -> u32 = lfm_try_lock_for, lfm_try_lock_for_here;
    fn unlock(self) -> u32 = lfm_unlock, lfm_unlock_here;
    fn depth(self) -> u64 = lfm_depth, lfm_depth_here;
    fn wait[condvar: &RawCondvar](self) -> u32 = lfm_wait, lfm_wait_here;
    fn wait_for[condvar: &RawCondvar](self, nanoseconds: u64) -> u32 = lfm_wait_for, lfm_wait_for_here;
}
