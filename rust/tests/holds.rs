//! Holds of threads: assertions of them, guards that are made of them, waits until a moment, and panics in them.
use ligdrosa::{Condvar, Mutex};
use std::{
    mem,
    panic::{catch_unwind, RefUnwindSafe, UnwindSafe},
    sync::Arc,
    thread,
    time::{Duration, Instant},
};

fn assert_unwind_safe<T: UnwindSafe + RefUnwindSafe>(_: &T) {}

#[test]
fn a_panic_in_a_hold_is_caught() {
    let mutex = Mutex::new(vec![1]);
    assert_unwind_safe(&mutex);
    assert_unwind_safe(&&mutex);
    let told = catch_unwind(|| {
        mutex.lock().unwrap().push(2);
        let _guard = mutex.lock().unwrap();
        panic!("in a hold");
    });
    assert!(told.is_err());
    assert_eq!(*mutex.try_lock().unwrap(), [1, 2]);
    assert_unwind_safe(&Condvar::new());
}

#[test]
fn a_hold_is_asserted() {
    let mutex = Arc::new(Mutex::new(0));
    let is_asserted = || catch_unwind(|| mutex.assert_held()).is_ok();
    assert!(!is_asserted());
    let mut guard = mutex.lock().unwrap();
    assert!(is_asserted());
    drop(guard.again().unwrap());
    assert!(is_asserted());
    assert!(!thread::scope(|scope| scope
        .spawn(is_asserted)
        .join()
        .unwrap()));
    drop(guard);
    assert!(!is_asserted());
    // a hold by a seat in hand is another seat's
    let mut seat = mutex.seat().unwrap();
    let guard = seat.lock().unwrap();
    assert!(!is_asserted());
    drop(guard);
}

#[test]
fn a_guard_of_a_forgotten_hold() {
    let mutex = Mutex::new(1);
    mem::forget(mutex.lock().unwrap());
    // SAFETY: the hold was forgotten.
    *unsafe { mutex.make_guard_unchecked() } += 1;
    assert_eq!(*mutex.try_lock().unwrap(), 2);
}

#[test]
fn waits_until_a_moment() {
    let (mutex, condvar) = (Mutex::new(false), Condvar::new());
    let mut guard = mutex.lock().unwrap();
    for end in [
        Instant::now() + Duration::from_millis(20),
        Instant::now() - Duration::from_millis(20),
    ] {
        let result = condvar.wait_until(&mut guard, end).unwrap();
        assert!(result.timed_out() && Instant::now() >= end);
    }
    thread::scope(|scope| {
        scope.spawn(|| {
            *mutex.lock().unwrap() = true;
            condvar.notify_one();
        });
        let end = Instant::now() + Duration::from_secs(3_600);
        while !*guard {
            let result = condvar.wait_until(&mut guard, end).unwrap();
            assert!(!result.timed_out());
        }
    });
    let mut deeper = guard.again().unwrap();
    let refused = condvar.wait_until(&mut deeper, Instant::now());
    assert_eq!(refused, Err(ligdrosa::Refusal::Nested));
}
