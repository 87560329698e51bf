//! How long it takes to make a mutex. std opens files to count the processors, which would take longer than everything else, so
//! this crate must not count them by std. The test program defines the call by which std opens a file: it counts, and fails.
use ligdrosa::{mutex, Condvar};
use std::{
    cell::Cell,
    ffi::{c_char, c_int},
    fs::File,
    time::Duration,
};

thread_local! {
    /// How many files the thread has tried to open.
    static OPENED: Cell<u32> = const { Cell::new(0) };
}

#[no_mangle]
extern "C" fn open64(_: *const c_char, _: c_int, _: c_int) -> c_int {
    OPENED.set(OPENED.get() + 1);
    -1
}

/// The processor time of the calling thread, to which no other thread adds.
fn own_time() -> Duration {
    // SAFETY: the C library has it with this type.
    unsafe extern "C" {
        fn clock_gettime(clock: c_int, time: *mut [i64; 2]) -> c_int;
    }
    const OF_THE_THREAD: c_int = 3;
    let mut time = [0; 2];
    // SAFETY: a timespec of Linux with addresses of 64 bits is two such numbers.
    assert_eq!(unsafe { clock_gettime(OF_THE_THREAD, &mut time) }, 0);
    Duration::new(time[0] as u64, time[1] as u32)
}

#[test]
fn a_thousand_mutexes() {
    const EACH: u32 = 50;
    let opened = || {
        let begun = own_time();
        for _ in 0..EACH {
            let _mutex = (mutex(8, 1, ()).unwrap(), Condvar::new());
        }
        (own_time() - begun) / EACH
    };
    let time = (0..20).map(|_| opened()).min().unwrap();
    assert_eq!(OPENED.get(), 0);
    assert!(
        time < Duration::from_micros(20),
        "{time:?} for a mutex of 8 seats"
    );
    assert!(File::open("/").is_err());
    assert_eq!(OPENED.get(), 1, "std opens files by another call");
}
