//! How this crate uses the library's calls. The test program defines them itself, so it links no library. It sees which calls
//! are made, and gives answers that the library seldom gives. The harness runs each test in a thread of its own.
use ligdrosa::{mutex, Condvar, Mutex, Refusal, Seat};
use std::{
    alloc::{GlobalAlloc, Layout, System},
    cell::{Cell, RefCell},
    env, mem,
    os::unix::process::ExitStatusExt,
    process::Command,
    sync::Arc,
    time::{Duration, Instant},
};

thread_local! {
    /// The call whose answer is not 0, and that answer.
    static UNUSUAL: Cell<(&'static str, u64)> = const { Cell::new(("", 0)) };
    /// The calls that were made, each with its arguments.
    static MADE: RefCell<Vec<(&'static str, Vec<usize>)>> = const { RefCell::new(Vec::new()) };
    /// How many seats the thread has freed.
    static FREED: Cell<u32> = const { Cell::new(0) };
}

/// Counts blocks that are freed and have the size and alignment of a seat.
struct Counted;

#[global_allocator]
static ALLOCATOR: Counted = Counted;

// SAFETY: the system's allocator does the work.
unsafe impl GlobalAlloc for Counted {
    unsafe fn alloc(&self, layout: Layout) -> *mut u8 {
        // SAFETY: the caller promises what it requires.
        unsafe { System.alloc(layout) }
    }

    unsafe fn dealloc(&self, block: *mut u8, layout: Layout) {
        if (layout.size(), layout.align()) == (256, 16) {
            FREED.set(FREED.get() + 1);
        }
        // SAFETY: the caller promises what it requires.
        unsafe { System.dealloc(block, layout) }
    }
}

// a script writes the numbers from here
const AGAIN: u64 = 1;
const POSTED: u64 = 4;
const NOBODY: u64 = 6;
const TIMED_OUT: u64 = 7;
const BLANK: u64 = 16;
const TAKEN: u64 = 17;
const LIMIT: u64 = 18;
const NO_MEMORY: u64 = 19;
const NO_SEAT: u64 = 20;
const HOLDING: u64 = 22;
const FOREIGN: u64 = 23;
const OTHER_HEADER: u64 = 24;
const SEAT_ASLEEP: u64 = 32;
const NESTED: u64 = 34;
const DEPTH_FULL: u64 = 35;
const SPENT: u64 = 36;
const BUSY: u64 = 39;
// to here

/// Defines these calls. Each argument is a word of 64 bits, as the processor passes it.
macro_rules! calls {
    ($($name:ident($($argument:ident)*))*) => {
        $(#[no_mangle]
        extern "C" fn $name($($argument: usize),*) -> u64 {
            MADE.with_borrow_mut(|made| made.push((stringify!($name), vec![$($argument),*])));
            let (call, answer) = UNUSUAL.get();
            if call == stringify!($name) { answer } else { 0 }
        })*
    };
}

calls! {
    lfm_mutex_open(mutex seats budget version)
    lfm_mutex_close(mutex)
    lfm_takes_left(mutex)
    lfm_after_fork(mutex seat)
    lfm_seat_take(mutex seat)
    lfm_seat_give(seat)
    lfm_seat_give_here(mutex)
    lfm_number(seat)
    lfm_left(seat)
    lfm_depth(seat)
    lfm_lock(seat)
    lfm_lock_in_order(seat)
    lfm_try_lock(seat)
    lfm_try_lock_for(seat nanoseconds)
    lfm_unlock(seat)
    lfm_wait(condvar seat)
    lfm_wait_for(condvar seat nanoseconds)
    lfm_depth_here(mutex)
    lfm_lock_here(mutex)
    lfm_lock_in_order_here(mutex)
    lfm_try_lock_here(mutex)
    lfm_try_lock_for_here(mutex nanoseconds)
    lfm_unlock_here(mutex)
    lfm_wait_here(condvar mutex)
    lfm_wait_for_here(condvar mutex nanoseconds)
    lfm_wake_one(condvar)
    lfm_wake_all(condvar)
    lfm_wake_one_by(condvar seat)
    lfm_wake_all_by(condvar seat)
}

#[no_mangle]
extern "C" fn lfm_status_text(status: u32) -> *const u8 {
    let text: &[u8] = if status == 39 { b"busy\0" } else { b"other\0" };
    text.as_ptr()
}

/// What the function returns while this call answers this.
fn while_it_answers<A>(call: &'static str, answer: u64, act: impl FnOnce() -> A) -> A {
    UNUSUAL.set((call, answer));
    let result = act();
    UNUSUAL.set(("", 0));
    result
}

/// The names of the calls that the function makes.
fn made_by(act: impl FnOnce()) -> Vec<&'static str> {
    MADE.take();
    act();
    MADE.take().into_iter().map(|(name, _)| name).collect()
}

/// The last argument of the last call of this name.
fn last_of(call: &str) -> Option<usize> {
    let made = MADE.take();
    let (_, arguments) = made.into_iter().rfind(|(name, _)| *name == call)?;
    arguments.last().copied()
}

#[test]
fn a_library_that_refuses() {
    for (call, status, refusal) in [
        ("lfm_mutex_open", LIMIT, Refusal::Limit),
        ("lfm_mutex_open", NO_MEMORY, Refusal::NoMemory),
        ("lfm_mutex_open", OTHER_HEADER, Refusal::OtherHeader),
        ("lfm_mutex_open", TAKEN, Refusal::Other),
        ("lfm_seat_take", NO_SEAT, Refusal::NoSeat),
    ] {
        let new = || mutex(1, 1, ()).err();
        assert_eq!(while_it_answers(call, status, new), Some(refusal));
    }
}

#[test]
fn a_call_that_is_refused_gives_no_guard() {
    let mutex = Mutex::new(());
    for (status, refusal) in [
        (NO_SEAT, Refusal::NoSeat),
        (DEPTH_FULL, Refusal::DepthFull),
        (SPENT, Refusal::Spent),
        (BUSY, Refusal::Busy),
    ] {
        let locks = || while_it_answers("lfm_lock_here", status, || mutex.lock().err());
        let made = made_by(|| assert_eq!(locks(), Some(refusal)));
        assert_eq!(made, ["lfm_lock_here"]);
    }
    let text = |refusal: Refusal| refusal.to_string();
    assert_eq!([Refusal::Busy, Refusal::Spent].map(text), ["busy", "other"]);
}

/// A thread that holds already gets no second guard from the mutex.
#[test]
fn a_second_lock_is_given_up() {
    let mutex = Mutex::new(());
    type Lock = fn(&Mutex<()>) -> Option<Refusal>;
    let calls: [(&str, Lock); 4] = [
        ("lfm_lock_here", |mutex| mutex.lock().err()),
        ("lfm_lock_in_order_here", |mutex| {
            mutex.lock_in_order().err()
        }),
        ("lfm_try_lock_here", |mutex| mutex.try_lock().err()),
        ("lfm_try_lock_for_here", |mutex| {
            mutex.try_lock_until(Instant::now()).err()
        }),
    ];
    for (call, lock) in calls {
        let made = made_by(|| {
            let refusal = while_it_answers(call, AGAIN, || lock(&mutex));
            assert_eq!(refusal, Some(Refusal::Holding));
        });
        assert_eq!(made, [call, "lfm_unlock_here"]);
        assert_eq!(
            made_by(|| assert_eq!(lock(&mutex), None)),
            [call, "lfm_unlock_here"]
        );
    }
}

#[test]
fn each_call_of_a_seat() {
    type Lock = fn(&mut Seat<()>);
    let mut seat = mutex(1, 1, ()).unwrap().remove(0);
    let calls: [(&str, Lock); 4] = [
        ("lfm_lock", |seat| drop(seat.lock())),
        ("lfm_lock_in_order", |seat| drop(seat.lock_in_order())),
        ("lfm_try_lock", |seat| drop(seat.try_lock())),
        ("lfm_try_lock_for", |seat| {
            drop(seat.try_lock_for(Duration::ZERO))
        }),
    ];
    for (call, lock) in calls {
        assert_eq!(made_by(|| lock(&mut seat)), [call, "lfm_unlock"]);
    }
}

/// A seat is not moved between the call that takes it and the call that gives it back.
#[test]
fn seats_lie_still() {
    let mut seats = mutex(1, 1, ()).unwrap();
    let place = last_of("lfm_seat_take");
    let mut moved = Box::new(seats.pop().unwrap());
    drop(while_it_answers("lfm_unlock", POSTED, || {
        moved.lock().unwrap()
    }));
    assert_eq!(last_of("lfm_unlock"), place);
    let calls = made_by(|| drop(moved));
    assert_eq!(calls, ["lfm_seat_give", "lfm_mutex_close"]);
}

/// The memory of a seat that stays taken is kept.
#[test]
fn a_seat_that_is_not_given_back_is_kept() {
    for (status, freed) in [(HOLDING, 0), (SEAT_ASLEEP, 0), (255, 0), (BLANK, 1), (0, 1)] {
        let seat = mutex(1, 1, ()).unwrap().remove(0);
        FREED.set(0);
        while_it_answers("lfm_seat_give", status, || drop(seat));
        assert_eq!(FREED.get(), freed, "if the library answers {status}");
    }
    FREED.set(0);
    assert!(while_it_answers("lfm_seat_take", NO_SEAT, || mutex(
        1,
        1,
        ()
    )
    .is_err()));
    assert_eq!(FREED.get(), 1);
}

/// A thread without a seat has none to give back.
#[test]
fn the_seat_of_a_living_thread() {
    let mutex = Mutex::new(());
    for (status, result) in [
        (0, Ok(())),
        (BLANK, Ok(())),
        (HOLDING, Err(Refusal::Holding)),
    ] {
        let gives = || while_it_answers("lfm_seat_give_here", status, || mutex.give_seat());
        let made = made_by(|| assert_eq!(gives(), result));
        assert_eq!(made, ["lfm_seat_give_here"]);
    }
}

/// A guard passes its seat. A seat of which the library says that it is no longer the mutex's is taken anew.
#[test]
fn after_a_fork() {
    let mutex = Arc::new(Mutex::new(()));
    let mut seat = mutex.seat().unwrap();
    let place = last_of("lfm_seat_take");
    // SAFETY: this test's library does nothing.
    unsafe {
        mutex.after_fork().unwrap();
        mutex.lock().unwrap().after_fork().unwrap();
        assert_eq!(last_of("lfm_after_fork"), Some(0));
        seat.lock().unwrap().after_fork().unwrap();
        assert_eq!(last_of("lfm_after_fork"), place);
        let made = made_by(|| seat.after_fork().unwrap());
        assert_eq!(made, ["lfm_after_fork"]);
        for (status, result, calls) in [
            (BUSY, Err(Refusal::Busy), 1),
            (NO_MEMORY, Err(Refusal::NoMemory), 1),
            (FOREIGN, Ok(()), 2),
            (BLANK, Ok(()), 2),
        ] {
            MADE.take();
            let follows = || seat.after_fork();
            assert_eq!(while_it_answers("lfm_after_fork", status, follows), result);
            assert_eq!(MADE.with_borrow(Vec::len), calls);
            let taken = if calls == 2 { place } else { None };
            assert_eq!(last_of("lfm_seat_take"), taken);
        }
    }
}

/// The mutex is closed when the last reference is dropped, even if a seat holds and is not given back.
#[test]
fn a_mutex_is_closed_once() {
    let mutex = Arc::new(Mutex::new(()));
    let mut seat = mutex.seat().unwrap();
    drop(mutex);
    mem::forget(seat.lock());
    let calls = made_by(|| while_it_answers("lfm_seat_give", HOLDING, || drop(seat)));
    assert_eq!(calls, ["lfm_seat_give", "lfm_mutex_close"]);
}

#[test]
fn times_in_nanoseconds() {
    let mutex = Mutex::new(());
    for (time, nanoseconds) in [
        (Duration::ZERO, 0),
        (Duration::from_millis(1_500), 1_500_000_000),
        (Duration::MAX, usize::MAX),
    ] {
        drop(mutex.try_lock_for(time));
        assert_eq!(last_of("lfm_try_lock_for_here"), Some(nanoseconds));
        let mut guard = mutex.lock().unwrap();
        Condvar::new().wait_timeout(&mut guard, time).unwrap();
        assert_eq!(last_of("lfm_wait_for_here"), Some(nanoseconds));
    }
    drop(mutex.try_lock_until(Instant::now() - Duration::from_secs(1)));
    assert_eq!(last_of("lfm_try_lock_for_here"), Some(0));
}

#[test]
fn what_waits_and_wakes_tell() {
    let (mutex, condvar) = (Mutex::new(()), Condvar::new());
    let mut guard = mutex.lock().unwrap();
    let mut times_out = |status| {
        let waits = || condvar.wait_timeout(&mut guard, Duration::ZERO);
        while_it_answers("lfm_wait_for_here", status, waits).map(|result| result.timed_out())
    };
    assert_eq!(
        [0, AGAIN, TIMED_OUT].map(&mut times_out),
        [Ok(false), Ok(false), Ok(true)]
    );
    assert_eq!(times_out(NESTED), Err(Refusal::Nested));
    for (status, anybody) in [(0, true), (NOBODY, false)] {
        assert_eq!(
            while_it_answers("lfm_wake_one", status, || condvar.notify_one()),
            anybody
        );
        assert_eq!(
            while_it_answers("lfm_wake_all", status, || condvar.notify_all()),
            anybody
        );
    }
}

/// After a wait that is refused as spent the guard holds no more, so the program ends. The test runs itself as a program that
/// makes this wait.
#[test]
fn a_wait_that_does_not_acquire_again() {
    const WAIT: &str = "LIGDROSA_TEST_WAIT";
    const ABORTED: i32 = 6;
    if let Some(is_timed) = env::var_os(WAIT).map(|wait| wait == "timed") {
        let (mutex, condvar) = (Mutex::new(()), Condvar::new());
        let mut guard = mutex.lock().unwrap();
        let told = if is_timed {
            let waits = || condvar.wait_timeout(&mut guard, Duration::ZERO).err();
            while_it_answers("lfm_wait_for_here", SPENT, waits)
        } else {
            while_it_answers("lfm_wait_here", SPENT, || condvar.wait(&mut guard).err())
        };
        panic!("the wait returned: {told:?}");
    }
    for wait in ["untimed", "timed"] {
        let mut program = Command::new(env::current_exe().unwrap());
        program.args(["--exact", "a_wait_that_does_not_acquire_again"]);
        let ended = program.arg("--nocapture").env(WAIT, wait).output().unwrap();
        assert_eq!(ended.status.signal(), Some(ABORTED));
        let text = String::from_utf8(ended.stderr).unwrap();
        assert!(text.contains("a wait can't acquire its mutex again"));
    }
}

/// The library finds the seat of a thread that holds by a mutex, but it doesn't find a seat in hand.
#[test]
fn wakes_by_a_holder() {
    let (mutex, condvar) = (Arc::new(Mutex::new(())), Condvar::new());
    let mut seat = mutex.seat().unwrap();
    let place = last_of("lfm_seat_take");
    let mut guard = seat.lock().unwrap();
    assert!(condvar.notify_one_by(&mut guard) && condvar.notify_all_by(&mut guard));
    assert_eq!(last_of("lfm_wake_one_by"), place);
    let nobody = || condvar.notify_all_by(&mut guard);
    assert!(!while_it_answers("lfm_wake_all_by", NOBODY, nobody));
    assert_eq!(last_of("lfm_wake_all_by"), place);
    let mut guard = mutex.lock().unwrap();
    let made = made_by(|| {
        assert!(condvar.notify_one_by(&mut guard) && condvar.notify_all_by(&mut guard));
    });
    assert_eq!(made, ["lfm_wake_one", "lfm_wake_all"]);
}
