//! Threads count by lock_api's mutexes over this raw mutex.
use ligdrosa_lock_api::{Mutex, MutexGuard, ReentrantMutex};
use std::{
    cell::Cell,
    panic::{catch_unwind, AssertUnwindSafe},
    thread,
    time::Duration,
};

#[test]
fn threads_count() {
    let (count, deeper) = (Mutex::new(0u64), ReentrantMutex::new(Cell::new(0u64)));
    let counts = || {
        for _ in 0..10_000 {
            *count.lock() += 1;
            let held = deeper.lock();
            deeper.lock().set(held.get() + 1);
        }
    };
    thread::scope(|scope| (0..4).for_each(|_| drop(scope.spawn(counts))));
    assert_eq!(
        (count.into_inner(), deeper.into_inner().get()),
        (40_000, 40_000)
    );
}

#[test]
fn a_mutex_that_is_held() {
    static HELD: Mutex<()> = Mutex::const_new(lock_api::RawMutex::INIT, ());
    let guard = HELD.lock();
    assert!(HELD.is_locked() && HELD.try_lock().is_none());
    assert!(HELD.try_lock_for(Duration::MAX).is_none());
    let times_out = || HELD.try_lock_for(Duration::from_millis(1)).is_none();
    assert!(thread::spawn(times_out).join().unwrap());
    drop(guard);
    assert!(!HELD.is_locked());
}

/// The guard holds again after the function, even if that panics.
#[test]
fn a_mutex_that_is_unlocked_meanwhile() {
    let mutex = Mutex::new(0);
    let mut guard = mutex.lock();
    let adds = || *mutex.lock() += 1;
    MutexGuard::unlocked(&mut guard, adds);
    let told = catch_unwind(AssertUnwindSafe(|| {
        MutexGuard::unlocked(&mut guard, || {
            adds();
            panic!("meanwhile");
        })
    }));
    assert!(told.is_err() && mutex.is_locked());
    assert!(thread::scope(|scope| scope
        .spawn(|| mutex.try_lock().is_none())
        .join()
        .unwrap()));
    assert_eq!(*guard, 2);
    drop(guard);
    assert!(!mutex.is_locked());
}
