//! Threads count together, and pass numbers through a buffer, each once. Other tests are of refusals, guards, time limits and
//! panics.
//!
//! The library announces to ThreadSanitizer what locks order. So the only races that it reports here are in std, which isn't
//! compiled for it: in the test harness, at the end of threads, and at the last drop of an `Arc`.
//!
//! ```text
//! RUSTFLAGS='-Zsanitizer=thread -Cunsafe-allow-abi-mismatch=sanitizer' \
//!   cargo +nightly test --test threads --target x86_64-unknown-linux-gnu
//! ```
use ligdrosa::{mutex, Condvar, Guard, Mutex, Refusal, Seat};
use std::{
    collections::VecDeque,
    fmt::Debug,
    mem,
    panic::{catch_unwind, AssertUnwindSafe},
    sync::{mpsc, Arc},
    thread,
    time::{Duration, Instant},
};

const A_WHILE: Duration = Duration::from_millis(20);
const LONG: Duration = Duration::from_secs(20);

#[test]
fn threads_count_together() {
    for threads in [2, 4, 8] {
        let seats = mutex(threads, 100_000, 0u64).unwrap();
        let mutex = seats[0].mutex().clone();
        let count = |mut seat: Seat<u64>| {
            thread::spawn(move || (0..20_000).for_each(|_| *seat.lock().unwrap() += 1))
        };
        let threads_running: Vec<_> = seats.into_iter().map(count).collect();
        threads_running.into_iter().for_each(|t| t.join().unwrap());
        let mutex = Arc::into_inner(mutex).unwrap();
        assert_eq!(mutex.into_inner(), 20_000 * threads as u64);
    }
}

/// There are three times as many threads as seats, but at each moment only as many as seats.
#[test]
fn threads_count_by_a_static() {
    static COUNT: Mutex<u64> = Mutex::with_seats(8, 0);
    for _ in 0..3 {
        let count = |in_order| {
            thread::spawn(move || {
                for _ in 0..10_000 {
                    let guard = if in_order {
                        COUNT.lock_in_order()
                    } else {
                        COUNT.lock()
                    };
                    *guard.unwrap() += 1;
                }
            })
        };
        let threads: Vec<_> = (0..8).map(|number| count(number % 2 == 0)).collect();
        threads.into_iter().for_each(|t| t.join().unwrap());
    }
    thread::spawn(|| assert_eq!(*COUNT.lock().unwrap(), 240_000))
        .join()
        .unwrap();
}

#[test]
fn a_hold_is_deepened() {
    let mut seats = mutex(2, 3, 7u64).unwrap();
    let mut second = seats.pop().unwrap();
    let mut first = seats.pop().unwrap();
    assert_ne!(first.number(), second.number());
    let mut guard = first.lock().unwrap();
    {
        let mut deeper = guard.again().unwrap();
        *deeper += 1;
        assert_eq!(deeper.depth(), 2);
        assert_eq!(second.try_lock().err(), Some(Refusal::Busy));
    }
    assert_eq!((guard.depth(), *guard), (1, 8));
    drop(guard);
    assert_eq!(*second.try_lock().unwrap(), 8);
    assert_eq!((first.left(), second.left()), (1 << 36, 1 << 36));
}

#[test]
fn a_thread_has_one_guard_of_a_mutex() {
    let mutex = Mutex::new(7u64);
    let mut guard = mutex.lock().unwrap();
    assert_eq!(mutex.lock().err(), Some(Refusal::Holding));
    let mut deeper = guard.again().unwrap();
    *deeper += 1;
    assert_eq!(mutex.try_lock().err(), Some(Refusal::Holding));
    assert_eq!(deeper.depth(), 2);
    drop(deeper);
    assert_eq!(guard.depth(), 1);
    thread::scope(|scope| {
        let other = scope.spawn(|| mutex.try_lock().err());
        assert_eq!(other.join().unwrap(), Some(Refusal::Busy));
    });
    drop(guard);
    assert_eq!(*mutex.lock().unwrap(), 8);
}

/// The seat can be taken anew: with its place in the queue, and as any other after that was passed by.
#[test]
fn a_queued_seat_is_dropped() {
    let mut seats = mutex(2, 9, ()).unwrap();
    let mutex = seats[0].mutex().clone();
    let mut second = seats.pop().unwrap();
    let guard = seats[0].lock().unwrap();
    assert_eq!(second.try_lock_for(A_WHILE).err(), Some(Refusal::Busy));
    drop(second);
    let mut second = mutex.seat().unwrap();
    assert_eq!(second.try_lock().err(), Some(Refusal::Busy));
    drop(second);
    drop(guard);
    let mut second = mutex.seat().unwrap();
    assert_eq!(second.lock().unwrap().depth(), 1);
}

/// A thread keeps its number, and keeps no other thread from the mutex, which was opened with one seat.
#[test]
fn a_living_thread_refuses_nobody() {
    let mutex = Mutex::with_seats(1, 0);
    assert_eq!(mutex.give_seat(), Ok(()));
    let in_a_thread = || {
        thread::scope(|scope| {
            let adds = || mutex.lock().map(|mut value| *value += 1).err();
            assert_eq!(scope.spawn(adds).join().unwrap(), None);
        });
    };
    let guard = mutex.lock().unwrap();
    assert_eq!(mutex.give_seat(), Err(Refusal::Holding));
    drop(guard);
    in_a_thread();
    assert_eq!(mutex.give_seat(), Ok(()));
    in_a_thread();
    assert_eq!(*mutex.lock().unwrap(), 2);
}

#[test]
fn a_panic_gives_its_hold_up() {
    let mut seats = mutex(2, 3, 7u64).unwrap();
    let (first, second) = seats.split_at_mut(1);
    let panics = || {
        let mut guard = first[0].lock().unwrap();
        *guard.again().unwrap() += 1;
        panic!("while it holds");
    };
    assert!(catch_unwind(AssertUnwindSafe(panics)).is_err());
    assert_eq!(*second[0].try_lock().unwrap(), 8);
}

#[test]
fn a_forgotten_guard_holds_on() {
    let mut seats = mutex(2, 3, ()).unwrap();
    let mut second = seats.pop().unwrap();
    let mut first = seats.pop().unwrap();
    mem::forget(first.lock().unwrap());
    assert_eq!(first.lock().unwrap().depth(), 2);
    for _ in 1..65_535 {
        mem::forget(first.lock().unwrap());
    }
    assert_eq!(first.lock().err(), Some(Refusal::DepthFull));
    drop(first);
    assert_eq!(second.try_lock().err(), Some(Refusal::Busy));
    let mutex = Mutex::new(());
    mem::forget(mutex.lock().unwrap());
    assert_eq!(mutex.lock().err(), Some(Refusal::Holding));
    // SAFETY: a guard was forgotten, and no reference to the value is used.
    unsafe { mutex.force_unlock() };
    assert_eq!(mutex.lock().err(), None);
}

#[test]
fn the_value_without_a_lock() {
    let mut mutex = Box::new(Mutex::from(String::from("a")));
    mutex.get_mut().push('b');
    mutex.lock().unwrap().push('c');
    let mut moved = *mutex;
    moved.get_mut().push('d');
    moved.lock().unwrap().push('e');
    assert_eq!(moved.into_inner(), "abcde");
}

#[test]
fn what_is_shown() {
    let mutex = Arc::new(Mutex::new(7));
    assert_eq!(format!("{mutex:?}"), "Mutex { data: 7, .. }");
    let mut seat = mutex.seat().unwrap();
    let number = seat.number();
    assert_eq!(
        format!("{seat:?}"),
        format!("Seat {{ number: {number}, left: {}, .. }}", 1u64 << 36)
    );
    let guard = seat.lock().unwrap();
    assert_eq!(
        format!("{guard:?} {guard} {mutex:?}"),
        "7 7 Mutex { data: <locked>, .. }"
    );
    assert_eq!(
        format!("{:?} {}", Condvar::new(), Refusal::Busy),
        "Condvar { .. } the mutex is busy"
    );
}

#[test]
fn what_threads_may_share() {
    fn are_sent<T: Send>() {}
    fn are_shared<T: Sync + Debug>() {}
    are_sent::<Seat<u64>>();
    are_sent::<Guard<u64>>();
    are_shared::<Guard<u64>>();
    are_shared::<ligdrosa::MutexGuard<u64>>();
    are_shared::<Mutex<u64>>();
    are_shared::<Condvar>();
}

#[test]
fn refusals() {
    assert_eq!(mutex(0, 1, ()).err(), Some(Refusal::Limit));
    assert_eq!(mutex(4096, 1, ()).err(), Some(Refusal::Limit));
    assert_eq!(mutex(1, 0, ()).err(), Some(Refusal::Limit));
    assert_eq!(mutex(1, (1 << 36) + 1, ()).err(), Some(Refusal::Limit));
    for seats in [0, 4096, u32::MAX] {
        assert_eq!(
            Mutex::with_seats(seats, ()).lock().err(),
            Some(Refusal::Limit)
        );
    }
    let mut seats = mutex(1, 1, ()).unwrap();
    let mut guard = seats[0].lock().unwrap();
    let condvar = Condvar::new();
    assert_eq!(
        condvar.wait(&mut guard.again().unwrap()),
        Err(Refusal::Nested)
    );
    assert_eq!(guard.depth(), 1);
    assert!(!condvar.notify_one() && !condvar.notify_all());
}

/// Holds the mutex in another thread until the function returns.
fn while_another_holds<T: Send>(mutex: &Mutex<T>, act: impl FnOnce()) {
    thread::scope(|scope| {
        let (says, holds) = mpsc::channel();
        let (ends, over) = mpsc::channel::<()>();
        scope.spawn(move || {
            let _guard = mutex.lock().unwrap();
            says.send(()).unwrap();
            over.recv().unwrap_err();
        });
        holds.recv().unwrap();
        act();
        drop(ends);
    });
}

#[test]
fn locks_with_a_time_limit() {
    let mutex = Arc::new(Mutex::new(()));
    let mut seat = mutex.seat().unwrap();
    while_another_holds(&mutex, || {
        let begun = Instant::now();
        assert_eq!(mutex.try_lock_for(A_WHILE).err(), Some(Refusal::Busy));
        assert_eq!(seat.try_lock_for(A_WHILE).err(), Some(Refusal::Busy));
        assert!(begun.elapsed() >= 2 * A_WHILE);
        let end = Instant::now() + A_WHILE;
        assert_eq!(mutex.try_lock_until(end).err(), Some(Refusal::Busy));
        assert_eq!(seat.try_lock_until(end).err(), Some(Refusal::Busy));
        assert!(Instant::now() >= end);
    });
    let begun = Instant::now();
    drop(mutex.try_lock_for(LONG).unwrap());
    drop(seat.try_lock_until(begun + LONG).unwrap());
    thread::scope(|scope| {
        let guard = mutex.lock().unwrap();
        let waits = scope.spawn(|| drop(seat.try_lock_for(LONG).unwrap()));
        thread::sleep(A_WHILE);
        drop(guard);
        waits.join().unwrap();
    });
    assert!(begun.elapsed() < LONG);
}

#[test]
fn waits_with_a_time_limit() {
    let (mutex, condvar) = (Mutex::new(0), Condvar::new());
    let begun = Instant::now();
    let times_out = |time, least| {
        let mut guard = mutex.lock().unwrap();
        let result = condvar.wait_timeout_while(&mut guard, time, |value| *value < least);
        result.unwrap().timed_out()
    };
    assert!(times_out(A_WHILE, 1));
    let result = condvar.wait_timeout(&mut mutex.lock().unwrap(), A_WHILE);
    assert!(result.unwrap().timed_out());
    assert!(begun.elapsed() >= 2 * A_WHILE);
    assert!(!times_out(LONG, 0));
    thread::scope(|scope| {
        scope.spawn(|| {
            for _ in 0..3 {
                thread::sleep(A_WHILE);
                *mutex.lock().unwrap() += 1;
                condvar.notify_all();
            }
        });
        assert!(!times_out(LONG, 3));
    });
    assert!(begun.elapsed() < LONG);
    assert_eq!(mutex.into_inner(), 3);
}

#[test]
fn wakes_go_in_the_order_of_the_waits() {
    static WOKEN: Mutex<Vec<u32>> = Mutex::new(Vec::new());
    static WAITING: Mutex<u32> = Mutex::new(0);
    static FILLED: Condvar = Condvar::new();
    let wait = |number| {
        thread::spawn(move || {
            let mut waiting = WAITING.lock().unwrap();
            *waiting += 1;
            FILLED.wait(&mut waiting).unwrap();
            WOKEN.lock().unwrap().push(number);
        })
    };
    let mut threads = Vec::new();
    for number in 1..=4 {
        threads.push(wait(number));
        while *WAITING.lock().unwrap() < number {
            thread::yield_now();
        }
    }
    for thread in threads {
        assert!(FILLED.notify_one());
        thread.join().unwrap();
    }
    assert!(!FILLED.notify_one());
    assert_eq!(*WOKEN.lock().unwrap(), [1, 2, 3, 4]);
}

#[derive(Default)]
struct Buffer {
    numbers: VecDeque<u64>,
    is_over: bool,
}

static NOT_EMPTY: Condvar = Condvar::new();
static NOT_FULL: Condvar = Condvar::new();

/// Takes numbers out of the buffer until it is over.
fn consume(mut seat: Seat<Buffer>) -> Vec<u64> {
    let mut numbers = Vec::new();
    loop {
        let mut guard = seat.lock().unwrap();
        let waits = |buffer: &mut Buffer| buffer.numbers.is_empty() && !buffer.is_over;
        NOT_EMPTY.wait_while(&mut guard, waits).unwrap();
        let Some(number) = guard.numbers.pop_front() else {
            return numbers;
        };
        numbers.push(number);
        NOT_FULL.notify_one_by(&mut guard);
    }
}

#[test]
fn numbers_pass_a_bounded_buffer() {
    let buffer = Arc::new(Mutex::new(Buffer::default()));
    let consumer = |_| {
        let seat = buffer.seat().unwrap();
        thread::spawn(|| consume(seat))
    };
    let consumers = [0, 1].map(consumer);
    for number in 0..20_000 {
        let mut guard = buffer.lock().unwrap();
        let waits = |buffer: &mut Buffer| buffer.numbers.len() == 4;
        NOT_FULL.wait_while(&mut guard, waits).unwrap();
        guard.numbers.push_back(number);
        NOT_EMPTY.notify_one();
    }
    buffer.lock().unwrap().is_over = true;
    NOT_EMPTY.notify_all();
    let consumed = consumers.map(|consumer| consumer.join().unwrap());
    let mut numbers = consumed.concat();
    numbers.sort_unstable();
    assert!(numbers.into_iter().eq(0..20_000));
}
