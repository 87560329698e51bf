//! The mutexes that the program measures, with one interface. That of parking_lot is there if `parking_lot` is set, which
//! scripts/bench/bench_c does if it finds the crate.
use ligdrosa::{mutex, Condvar, Guard, Mutex, MutexGuard, Seat};
#[cfg(parking_lot)]
use std::{mem::ManuallyDrop, ops::Deref};
use std::{ops::DerefMut, sync::Arc};

/// How many numbers the bounded queue has room for.
pub const PLACES: usize = 16;

/// What the mutexes guard. It is boxed, so that it lies outside the mutex, as in C and C++.
#[derive(Default)]
pub struct State {
    pub total: u64,
    pub whose: usize,
    pub generation: u32,
    pub waiting: usize,
    pub slots: [u64; PLACES],
    pub put: usize,
    pub taken: usize,
}

/// A mutex and its condition variables.
pub trait Kind {
    /// What one thread locks the mutex with.
    type Own: Send;
    type Held<'a>: DerefMut<Target = Box<State>>;
    type Condition: Default + Sync;
    const NAME: &'static str;
    /// How many a process may have at most.
    const MOST_OWNS: usize = usize::MAX;

    fn owns(count: usize) -> Vec<Self::Own>;
    fn lock(own: &mut Self::Own) -> Self::Held<'_>;
    /// Queues at once, if the mutex has such a call.
    fn lock_in_order(own: &mut Self::Own) -> Self::Held<'_> {
        Self::lock(own)
    }
    fn is_refused(own: &mut Self::Own) -> bool;
    /// Makes a mutex, locks it once and drops it.
    fn hold_once();
    fn wait<'a>(condition: &Self::Condition, held: Self::Held<'a>) -> Self::Held<'a>;
    fn wake_one(condition: &Self::Condition, held: &mut Self::Held<'_>);
    fn wake_all(condition: &Self::Condition, held: &mut Self::Held<'_>);
}

/// This crate's, with seats in hand.
pub struct InHand;

impl Kind for InHand {
    type Own = Seat<Box<State>>;
    type Held<'a> = Guard<'a, Box<State>>;
    type Condition = Condvar;
    const NAME: &'static str = "Rust in hand";
    const MOST_OWNS: usize = 4_095;

    fn owns(count: usize) -> Vec<Self::Own> {
        mutex(count, 1 << 36, Box::default()).expect("a mutex")
    }
    fn lock(own: &mut Self::Own) -> Self::Held<'_> {
        own.lock().expect("a hold")
    }
    fn lock_in_order(own: &mut Self::Own) -> Self::Held<'_> {
        own.lock_in_order().expect("a hold")
    }
    fn is_refused(own: &mut Self::Own) -> bool {
        own.try_lock().is_err()
    }
    fn hold_once() {
        let mut seats = mutex(1, 1 << 36, 0u64).expect("a mutex");
        *seats[0].lock().expect("a hold") += 1;
    }
    fn wait<'a>(condition: &Condvar, mut held: Self::Held<'a>) -> Self::Held<'a> {
        condition.wait(&mut held).expect("a wait");
        held
    }
    fn wake_one(condition: &Condvar, held: &mut Self::Held<'_>) {
        condition.notify_one_by(held);
    }
    fn wake_all(condition: &Condvar, held: &mut Self::Held<'_>) {
        condition.notify_all_by(held);
    }
}

/// This crate's, by the calling thread.
pub struct Here;

impl Kind for Here {
    type Own = Arc<Mutex<Box<State>>>;
    type Held<'a> = MutexGuard<'a, Box<State>>;
    type Condition = Condvar;
    const NAME: &'static str = "Rust";

    fn owns(count: usize) -> Vec<Self::Own> {
        vec![Arc::default(); count]
    }
    fn lock(own: &mut Self::Own) -> Self::Held<'_> {
        own.lock().expect("a hold")
    }
    fn lock_in_order(own: &mut Self::Own) -> Self::Held<'_> {
        own.lock_in_order().expect("a hold")
    }
    fn is_refused(own: &mut Self::Own) -> bool {
        own.try_lock().is_err()
    }
    fn hold_once() {
        *Mutex::new(0u64).lock().expect("a hold") += 1;
    }
    fn wait<'a>(condition: &Condvar, mut held: Self::Held<'a>) -> Self::Held<'a> {
        condition.wait(&mut held).expect("a wait");
        held
    }
    fn wake_one(condition: &Condvar, _: &mut Self::Held<'_>) {
        condition.notify_one();
    }
    fn wake_all(condition: &Condvar, _: &mut Self::Held<'_>) {
        condition.notify_all();
    }
}

/// The standard library's.
pub struct Std;

impl Kind for Std {
    type Own = Arc<std::sync::Mutex<Box<State>>>;
    type Held<'a> = std::sync::MutexGuard<'a, Box<State>>;
    type Condition = std::sync::Condvar;
    const NAME: &'static str = "std::sync::Mutex";

    fn owns(count: usize) -> Vec<Self::Own> {
        vec![Arc::default(); count]
    }
    fn lock(own: &mut Self::Own) -> Self::Held<'_> {
        own.lock().expect("a hold")
    }
    fn is_refused(own: &mut Self::Own) -> bool {
        own.try_lock().is_err()
    }
    fn hold_once() {
        *std::sync::Mutex::new(0u64).lock().expect("a hold") += 1;
    }
    fn wait<'a>(condition: &Self::Condition, held: Self::Held<'a>) -> Self::Held<'a> {
        condition.wait(held).expect("a wait")
    }
    fn wake_one(condition: &Self::Condition, _: &mut Self::Held<'_>) {
        condition.notify_one();
    }
    fn wake_all(condition: &Self::Condition, _: &mut Self::Held<'_>) {
        condition.notify_all();
    }
}

/// That of the crate parking_lot, whose unlock hands the mutex on if it is `FAIR`.
#[cfg(parking_lot)]
pub struct ParkingLot<const FAIR: bool>;

/// Its guard, which is dropped by either kind of unlock.
#[cfg(parking_lot)]
pub struct ParkingLotGuard<'a, const FAIR: bool>(
    ManuallyDrop<parking_lot::MutexGuard<'a, Box<State>>>,
);

#[cfg(parking_lot)]
impl<const FAIR: bool> Deref for ParkingLotGuard<'_, FAIR> {
    type Target = Box<State>;
    fn deref(&self) -> &Box<State> {
        &self.0
    }
}

#[cfg(parking_lot)]
impl<const FAIR: bool> DerefMut for ParkingLotGuard<'_, FAIR> {
    fn deref_mut(&mut self) -> &mut Box<State> {
        &mut self.0
    }
}

#[cfg(parking_lot)]
impl<const FAIR: bool> Drop for ParkingLotGuard<'_, FAIR> {
    fn drop(&mut self) {
        // SAFETY: the guard is not used after it was dropped.
        let guard = unsafe { ManuallyDrop::take(&mut self.0) };
        if FAIR {
            parking_lot::MutexGuard::unlock_fair(guard);
        }
    }
}

#[cfg(parking_lot)]
impl<const FAIR: bool> Kind for ParkingLot<FAIR> {
    type Own = Arc<parking_lot::Mutex<Box<State>>>;
    type Held<'a> = ParkingLotGuard<'a, FAIR>;
    type Condition = parking_lot::Condvar;
    const NAME: &'static str = if FAIR {
        "parking_lot, fair"
    } else {
        "parking_lot"
    };

    fn owns(count: usize) -> Vec<Self::Own> {
        vec![Arc::default(); count]
    }
    fn lock(own: &mut Self::Own) -> Self::Held<'_> {
        ParkingLotGuard(ManuallyDrop::new(own.lock()))
    }
    fn is_refused(own: &mut Self::Own) -> bool {
        own.try_lock().is_none()
    }
    fn hold_once() {
        *parking_lot::Mutex::new(0u64).lock() += 1;
    }
    fn wait<'a>(condition: &Self::Condition, mut held: Self::Held<'a>) -> Self::Held<'a> {
        condition.wait(&mut held.0);
        held
    }
    fn wake_one(condition: &Self::Condition, _: &mut Self::Held<'_>) {
        condition.notify_one();
    }
    fn wake_all(condition: &Self::Condition, _: &mut Self::Held<'_>) {
        condition.notify_all();
    }
}
