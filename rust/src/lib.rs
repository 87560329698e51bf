//! A recursive mutex that guards a value, and a condition variable, over Ligdrosa's library for C. Its header `ligdrosa.h`
//! states what of the library is proved and what is only tested. This crate adds guards, and is only tested.
//!
//! The library is for Linux. It is linked from the folder that `LIGDROSA_OUT` names, or else from the folder in which the
//! repository builds it, or else from where pkg-config finds it.
//!
//! A [`Mutex`] is shared by reference, as that of `std::sync`. [`Condvar`] has an example of both. Or each thread has a
//! [`Seat`] in hand:
//!
//! ```
//! let seats = ligdrosa::mutex(2, 1_000, 0u64)?;
//! std::thread::scope(|scope| {
//!     for mut seat in seats {
//!         scope.spawn(move || *seat.lock().unwrap() += 1);
//!     }
//! });
//! # Ok::<(), ligdrosa::Refusal>(())
//! ```
//!
//! A forked child may drop what it has of its parent's mutexes, except for guards. It calls a mutex that its thread held as
//! the parent forked only after [`Mutex::after_fork`], [`Seat::after_fork`] or [`Guard::after_fork`]. It doesn't call one that
//! another thread held, or that nobody held and another thread asked for or was releasing. It calls a condition variable after
//! [`Condvar::after_fork`].

#[cfg(not(all(target_os = "linux", target_pointer_width = "64")))]
compile_error!("ligdrosa needs Linux with addresses of 64 bits");

mod condvar;
mod library;
mod mutex;
mod seat;

pub use condvar::{Condvar, WaitTimeoutResult};
pub use library::Refusal;
pub use mutex::{Guard, Mutex, MutexGuard};
pub use seat::{mutex, Seat};
