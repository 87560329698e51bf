//! Calls by a thread for which no number is left. It is the only test of its process, which has 4,095 numbers.
use ligdrosa_lock_api::Mutex;
use std::{
    iter,
    panic::{catch_unwind, AssertUnwindSafe},
    sync::Arc,
    time::Duration,
};

#[test]
fn a_thread_that_finds_no_number() {
    let (other, mutex) = (Arc::new(ligdrosa::Mutex::new(())), Mutex::new(7));
    let seats: Vec<_> = iter::from_fn(|| other.seat().ok()).collect();
    assert_eq!(seats.len(), 4_095);
    assert!(mutex.try_lock().is_none() && mutex.is_locked());
    assert_eq!(format!("{mutex:?}"), "Mutex { data: <locked> }");
    let tries = AssertUnwindSafe(|| drop(mutex.try_lock_for(Duration::ZERO)));
    assert!(catch_unwind(tries).is_err());
    drop(seats);
    assert_eq!(format!("{mutex:?}"), "Mutex { data: 7 }");
}
