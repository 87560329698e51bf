//! Waits with the guards of lock_api's mutexes.
use ligdrosa_lock_api::{Condvar, Mutex};
use std::{
    thread,
    time::{Duration, Instant},
};

/// Two threads take turns, so each waits for the other.
#[test]
fn threads_take_turns() {
    let (turn, changed) = (Mutex::new(0u32), Condvar::new());
    let take_turns = |own: u32| {
        for _ in 0..5_000 {
            let mut turn = turn.lock();
            changed.wait_while(&mut turn, |turn| *turn % 2 != own);
            *turn += 1;
            changed.notify_one();
        }
    };
    thread::scope(|scope| {
        scope.spawn(|| take_turns(1));
        take_turns(0);
    });
    assert_eq!(*turn.lock(), 10_000);
    assert!(!changed.notify_one() && !changed.notify_all());
}

#[test]
fn waits_with_a_time_limit() {
    let (is_set, condvar) = (Mutex::new(false), Condvar::new());
    let mut guard = is_set.lock();
    let begun = Instant::now();
    let time = Duration::from_millis(20);
    assert!(condvar.wait_for(&mut guard, time).timed_out());
    assert!(condvar.wait_until(&mut guard, begun).timed_out());
    assert!(begun.elapsed() >= time && is_set.is_locked());
    thread::scope(|scope| {
        scope.spawn(|| {
            *is_set.lock() = true;
            assert!(condvar.notify_all());
        });
        while !*guard {
            assert!(!condvar
                .wait_for(&mut guard, Duration::from_secs(3_600))
                .timed_out());
        }
    });
    drop(guard);
    assert!(!is_set.is_locked());
}
