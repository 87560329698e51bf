//! Forked children make mutexes and condition variables new, and use them.
use ligdrosa::{mutex, Condvar, Mutex, Refusal};
use std::{
    ffi::{c_int, c_uint},
    mem,
    panic::{catch_unwind, AssertUnwindSafe},
    sync::{mpsc, Arc},
    thread,
};

// SAFETY: the C library has them with these types.
unsafe extern "C" {
    fn fork() -> c_int;
    safe fn alarm(seconds: c_uint) -> c_uint;
    safe fn _exit(status: c_int) -> !;
    fn waitpid(child: c_int, status: *mut c_int, options: c_int) -> c_int;
}

/// Runs this in a forked child and expects that it doesn't panic. An alarm ends a child that hangs.
fn in_child(act: impl FnOnce()) {
    // SAFETY: the child calls nothing that waits for threads of the parent: it uses no lock that they may have held.
    let child = unsafe { fork() };
    if child == 0 {
        alarm(20);
        let result = catch_unwind(AssertUnwindSafe(act));
        _exit(c_int::from(result.is_err()));
    }
    let mut status = -1;
    // SAFETY: the status is an int.
    assert_eq!(unsafe { waitpid(child, &mut status, 0) }, child);
    assert_eq!(status, 0, "how the child ends");
}

/// Threads add to the value by seats that they find by themselves.
fn add_in_threads(value: &Mutex<u64>) {
    thread::scope(|scope| {
        for _ in 0..3 {
            scope.spawn(|| (0..1_000).for_each(|_| *value.lock().unwrap() += 1));
        }
    });
}

/// The thread that forks holds twice, and another thread waits.
#[test]
fn the_thread_that_forks_holds() {
    static VALUE: Mutex<u64> = Mutex::with_seats(4, 7);
    static FILLED: Condvar = Condvar::new();
    thread::spawn(|| {
        let mut value = VALUE.lock().unwrap();
        *value += 1;
        FILLED.wait(&mut value).unwrap();
    });
    while *VALUE.lock().unwrap() == 7 {
        thread::yield_now();
    }
    let mut guard = VALUE.lock().unwrap();
    mem::forget(guard.again().unwrap());
    in_child(|| {
        // SAFETY: the child has made no calls yet, and has one thread. It holds once more than it has guards.
        unsafe {
            VALUE.after_fork().unwrap();
            guard.after_fork().unwrap(); // a second call changes nothing
            FILLED.after_fork();
            assert_eq!((guard.depth(), *guard), (2, 8));
            VALUE.force_unlock();
        }
        assert!(!FILLED.notify_all());
        let fills = thread::spawn(|| {
            *VALUE.lock().unwrap() += 1;
            assert!(FILLED.notify_one());
        });
        FILLED.wait_while(&mut guard, |value| *value == 8).unwrap();
        fills.join().unwrap();
        drop(guard);
        add_in_threads(&VALUE);
        assert_eq!(*VALUE.lock().unwrap(), 3_009);
    });
}

/// One seat makes the mutex new, and the others are taken anew.
#[test]
fn seats_in_hand_follow() {
    let mut seats = mutex(3, 1_000, 7u64).unwrap();
    let mut third = seats.pop().unwrap();
    let mut second = seats.pop().unwrap();
    let mut first = seats.pop().unwrap();
    let mut guard = second.lock().unwrap();
    in_child(|| {
        // SAFETY: the child has made no calls yet, and has one thread.
        unsafe {
            assert_eq!(first.after_fork(), Err(Refusal::Busy));
            guard.after_fork().unwrap();
            first.after_fork().unwrap();
            third.after_fork().unwrap();
            third.after_fork().unwrap();
        }
        assert_eq!(guard.depth(), 1);
        *guard += 1;
        assert_eq!(first.try_lock().err(), Some(Refusal::Busy));
        drop(guard);
        thread::scope(|scope| {
            for seat in [&mut first, &mut third] {
                scope.spawn(|| (0..100).for_each(|_| *seat.lock().unwrap() += 1));
            }
        });
        drop(first);
        let fourth = third.mutex().seat().unwrap();
        drop(fourth);
        assert_eq!(*third.lock().unwrap(), 208);
    });
}

/// A hold whose guard was forgotten.
#[test]
fn a_seat_that_holds() {
    let mut seat = mutex(1, 9, ()).unwrap().remove(0);
    mem::forget(seat.lock().unwrap());
    in_child(|| {
        // SAFETY: the child has made no calls yet, and has one thread.
        unsafe { seat.after_fork().unwrap() };
        assert_eq!(seat.lock().unwrap().depth(), 2);
    });
}

/// A child that is forked while another thread holds can't use the mutex. A later child can, by a thread that has no seat.
#[test]
fn another_thread_holds() {
    let mutex = Arc::new(Mutex::new(7));
    let mut seat = mutex.seat().unwrap();
    let (says, holds) = mpsc::channel();
    let (ends, over) = mpsc::channel::<()>();
    let held = mutex.clone();
    let holder = thread::spawn(move || {
        let _guard = held.lock().unwrap();
        says.send(()).unwrap();
        over.recv().unwrap_err();
    });
    holds.recv().unwrap();
    in_child(|| {
        // SAFETY: the child makes no other calls.
        assert_eq!(unsafe { mutex.after_fork() }, Err(Refusal::Busy));
    });
    drop(ends);
    holder.join().unwrap();
    in_child(|| {
        // SAFETY: the child has made no calls yet, and has one thread.
        unsafe {
            mutex.after_fork().unwrap();
            seat.after_fork().unwrap();
        }
        *mutex.lock().unwrap() += 1;
        assert_eq!(*seat.lock().unwrap(), 8);
    });
}
