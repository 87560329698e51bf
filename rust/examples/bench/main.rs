//! Times this crate's mutex and condition variable beside the standard library's, in turn: bench [ROUNDS [MILLISECONDS]]. A
//! line is ROW|LOCK|MEDIAN|LEAST|GREATEST of the rounds. In rows that end in `in order` our locks queue at once.
//! c_tests/bench.cpp has the same rows of C and C++, and scripts/bench/bench_c makes a table of both.
mod locks;
#[cfg(parking_lot)]
use locks::ParkingLot;
use locks::{Here, InHand, Kind, Std, PLACES};
use std::{
    env,
    hint::black_box,
    sync::{
        atomic::{AtomicBool, Ordering::Relaxed},
        Barrier,
    },
    thread,
    time::{Duration, Instant},
};

/// Turns of a loop that only take time, and take as long from each place that calls them.
#[inline(never)]
fn turn(count: u64) {
    for turn in 0..count {
        black_box(turn);
    }
}

/// How many turns take this many nanoseconds, by the quickest of many tries.
fn turns_of(nanoseconds: u64) -> u64 {
    const TURNS: u64 = 20_000;
    let took = |_| {
        let begun = Instant::now();
        turn(TURNS);
        begun.elapsed().as_nanos() as u64
    };
    nanoseconds * TURNS / (0..2_000).map(took).min().unwrap_or(1).max(1)
}

/// The processor time of the calling thread, in nanoseconds, to which no other thread adds.
fn own_time() -> u64 {
    const CLOCK_THREAD_CPUTIME_ID: i32 = 3;
    extern "C" {
        fn clock_gettime(clock: i32, time: *mut [i64; 2]) -> i32;
    }
    let mut time = [0; 2];
    // SAFETY: a timespec of Linux with addresses of 64 bits is two such numbers.
    unsafe { clock_gettime(CLOCK_THREAD_CPUTIME_ID, &mut time) };
    let [seconds, nanoseconds] = time.map(|part| part as u64);
    seconds * 1_000_000_000 + nanoseconds
}

/// The processor time that the function takes of the calling thread, divided by this number.
fn own_time_of(count: usize, work: impl FnOnce()) -> [f64; 1] {
    let begun = own_time();
    work();
    [(own_time() - begun) as f64 / count as f64]
}

/// The nanoseconds divided by this number.
fn each(begun: Instant, count: usize) -> f64 {
    begun.elapsed().as_nanos() as f64 / count as f64
}

/// A lock, or one that queues at once.
fn lock<K: Kind, const IN_ORDER: bool>(own: &mut K::Own) -> K::Held<'_> {
    match IN_ORDER {
        true => K::lock_in_order(own),
        false => K::lock(own),
    }
}

fn alone<K: Kind, const IN_ORDER: bool>() -> [f64; 1] {
    const PAIRS: usize = 100_000;
    let mut own = K::owns(1).remove(0);
    own_time_of(PAIRS, || {
        for _ in 0..PAIRS {
            lock::<K, IN_ORDER>(&mut own).total += 1;
        }
    })
}

/// Another thread holds.
fn refused_try<K: Kind>() -> [f64; 1] {
    const TRIES: usize = 100_000;
    let mut owns = K::owns(2);
    let mut other = owns.remove(1);
    let _held = K::lock(&mut owns[0]);
    let tries = move || {
        own_time_of(TRIES, || {
            for _ in 0..TRIES {
                assert!(K::is_refused(&mut other));
            }
        })
    };
    thread::scope(|scope| scope.spawn(tries).join().expect("an answer"))
}

/// One thread, and this many mutexes in a random order.
fn among<K: Kind>(count: usize) -> [f64; 1] {
    const PAIRS: usize = 50_000;
    if count > K::MOST_OWNS {
        return [f64::NAN];
    }
    let mut owns: Vec<_> = (0..count).flat_map(|_| K::owns(1)).collect();
    let mut order: Vec<_> = (0..count).collect();
    let mut random = 1u64;
    for at in (1..count).rev() {
        random = random
            .wrapping_mul(6_364_136_223_846_793_005)
            .wrapping_add(1);
        order.swap(at, (random >> 33) as usize % (at + 1));
    }
    // the first round opens them
    let mut lock = |at: usize| drop(K::lock(&mut owns[order[at % count]]));
    (0..count).for_each(&mut lock);
    own_time_of(PAIRS, || (0..PAIRS).for_each(lock))
}

/// A mutex of one hold, without the memory that it shares with others.
fn short_lived<K: Kind>() -> [f64; 1] {
    const TIMES: usize = 50_000;
    own_time_of(TIMES, || (0..TIMES).for_each(|_| K::hold_once()))
}

/// Runs the function in this many threads, which begin together, and gives the nanoseconds until all have ended, and what they
/// answered. `beside` is done by the calling thread meanwhile.
fn in_threads<K: Kind, A: Send>(
    threads: usize,
    work: impl Fn(usize, K::Own) -> A + Sync,
    beside: impl FnOnce(),
) -> (f64, Vec<A>) {
    let start = Barrier::new(threads + 1);
    let (work, start) = (&work, &start);
    thread::scope(|scope| {
        let begin = |(number, own)| {
            scope.spawn(move || {
                start.wait();
                work(number, own)
            })
        };
        let owns = K::owns(threads).into_iter().enumerate();
        let threads: Vec<_> = owns.map(begin).collect();
        let begun = Instant::now();
        start.wait();
        beside();
        let answers = threads
            .into_iter()
            .map(|thread| thread.join().expect("an answer"));
        let answers = answers.collect();
        (each(begun, 1), answers)
    })
}

/// This many threads, which hold for `inside` turns and stay outside for `outside` turns, until the time is over: the
/// nanoseconds for an acquisition, and the most of a thread over the fewest.
fn together<K: Kind, const IN_ORDER: bool>(
    threads: usize,
    (inside, outside): (u64, u64),
    time: Duration,
) -> [f64; 2] {
    let is_over = AtomicBool::new(false);
    let work = |_, mut own| {
        let mut gained = 0u64;
        while !is_over.load(Relaxed) {
            let mut held = lock::<K, IN_ORDER>(&mut own);
            held.total += 1;
            if inside > 0 {
                turn(inside);
            }
            drop(held);
            if outside > 0 {
                turn(outside);
            }
            gained += 1;
        }
        let total = K::lock(&mut own).total;
        (gained, total)
    };
    let (nanoseconds, shares) = in_threads::<K, _>(threads, work, || {
        thread::sleep(time);
        is_over.store(true, Relaxed);
    });
    let gained = || shares.iter().map(|(gained, _)| *gained);
    let sum: u64 = gained().sum();
    assert_eq!(shares.iter().map(|(_, total)| *total).max(), Some(sum));
    let most_over_fewest =
        gained().max().unwrap_or(0) as f64 / gained().min().unwrap_or(0).max(1) as f64;
    [nanoseconds / sum as f64, most_over_fewest]
}

/// Two threads wake one another in turn: a round trip.
fn ping_pong<K: Kind>() -> [f64; 1] {
    const TRIPS: u32 = 1_000;
    let conditions: [K::Condition; 2] = Default::default();
    let work = |number: usize, mut own| {
        for _ in 0..TRIPS {
            let mut held = K::lock(&mut own);
            while held.whose != number {
                held = K::wait(&conditions[number], held);
            }
            held.whose = 1 - number;
            K::wake_one(&conditions[1 - number], &mut held);
        }
    };
    [in_threads::<K, _>(2, work, || ()).0 / f64::from(TRIPS)]
}

/// The last thread wakes the others, which wait in one hold, again and again: the time from the wake until each of them has
/// held the mutex.
fn broadcast<K: Kind>(waiters: usize) -> [f64; 1] {
    const TIMES: usize = 50;
    let (go, all_wait) = (K::Condition::default(), K::Condition::default());
    let work = |number, mut own| {
        let mut begun = None;
        let mut held = K::lock(&mut own);
        for time in 0..TIMES {
            if number == waiters {
                while held.waiting != waiters {
                    held = K::wait(&all_wait, held);
                }
                begun.get_or_insert_with(Instant::now);
                held.waiting = 0;
                held.generation += 1;
                K::wake_all(&go, &mut held);
                continue;
            }
            held.waiting += 1;
            if held.waiting == waiters {
                K::wake_one(&all_wait, &mut held);
            }
            while held.generation as usize <= time {
                held = K::wait(&go, held);
            }
        }
        begun
    };
    let (_, begun) = in_threads::<K, _>(waiters + 1, work, || ());
    let begun = begun.into_iter().flatten().next().expect("a wake");
    [each(begun, TIMES)]
}

/// As many threads put numbers into a queue of 16 places as take them out.
fn queue<K: Kind>(pairs_of_threads: usize) -> [f64; 1] {
    let numbers = 4_000 / pairs_of_threads;
    let (not_full, not_empty) = (K::Condition::default(), K::Condition::default());
    let work = |number: usize, mut own| {
        let mut sum = 0;
        for put in 1..=numbers as u64 {
            let mut held = K::lock(&mut own);
            if number % 2 == 0 {
                while held.put - held.taken == PLACES {
                    held = K::wait(&not_full, held);
                }
                let at = held.put % PLACES;
                held.slots[at] = put;
                held.put += 1;
                K::wake_one(&not_empty, &mut held);
            } else {
                while held.put == held.taken {
                    held = K::wait(&not_empty, held);
                }
                sum += held.slots[held.taken % PLACES];
                held.taken += 1;
                K::wake_one(&not_full, &mut held);
            }
        }
        sum
    };
    let (nanoseconds, sums) = in_threads::<K, _>(2 * pairs_of_threads, work, || ());
    let moved = numbers * pairs_of_threads;
    assert_eq!(
        sums.into_iter().sum::<u64>() as usize,
        moved * (numbers + 1) / 2
    );
    [nanoseconds / moved as f64]
}

/// What measures one lock, with its name.
type Measure<'a, const ROWS: usize> = (&'static str, &'a dyn Fn() -> [f64; ROWS]);

/// Measures all locks in turn, and prints a line for each of the rows and each lock that has a figure there.
fn tell<const ROWS: usize>(rounds: usize, rows: [&str; ROWS], locks: &[Measure<ROWS>]) {
    let mut figures = vec![[(); ROWS].map(|()| Vec::new()); locks.len()];
    for _ in 0..rounds {
        for (figures, (_, measure)) in figures.iter_mut().zip(locks) {
            for (of_row, figure) in figures.iter_mut().zip(measure()) {
                of_row.push(figure);
            }
        }
    }
    for (row, what) in rows.iter().enumerate() {
        for (figures, (lock, _)) in figures.iter_mut().zip(locks) {
            let of_row = &mut figures[row];
            of_row.sort_by(f64::total_cmp);
            let (median, least, greatest) = (of_row[rounds / 2], of_row[0], of_row[rounds - 1]);
            if !median.is_nan() {
                println!("{what}|{lock}|{median:.1}|{least:.1}|{greatest:.1}");
            }
        }
    }
}

/// Measures this function of each kind, with its further parameters in brackets.
macro_rules! tell {
    ($rounds:expr, $rows:expr, $measure:ident $([$parameter:tt])? ($($argument:expr),*)) => {
        tell($rounds, $rows, &[
            (InHand::NAME, &|| $measure::<InHand $(, $parameter)?>($($argument),*)),
            (Here::NAME, &|| $measure::<Here $(, $parameter)?>($($argument),*)),
            (Std::NAME, &|| $measure::<Std $(, $parameter)?>($($argument),*)),
            #[cfg(parking_lot)]
            (ParkingLot::<false>::NAME, &|| $measure::<ParkingLot<false> $(, $parameter)?>($($argument),*)),
            #[cfg(parking_lot)]
            (ParkingLot::<true>::NAME, &|| $measure::<ParkingLot<true> $(, $parameter)?>($($argument),*)),
        ])
    };
}

fn main() {
    let number = |at, usual| {
        env::args()
            .nth(at)
            .and_then(|word| word.parse().ok())
            .unwrap_or(usual)
    };
    let rounds = number(1, 11) as usize;
    let time = Duration::from_millis(number(2, 50));
    tell!(rounds, ["alone: lock, unlock"], alone[false]());
    tell!(rounds, ["alone, in order"], alone[true]());
    tell!(rounds, ["try_lock that is refused"], refused_try());
    tell!(rounds, ["opened, locked once and closed"], short_lived());
    for count in [64, 4096, 65536] {
        tell!(rounds, [&format!("one among {count}")], among(count));
    }
    let loads = [
        ("short", (0, 0)),
        ("long", (turns_of(500), 0)),
        ("thinking", (0, turns_of(1_000))),
    ];
    for (load, turns) in loads {
        for threads in [2, 4, 8] {
            let row = format!("{threads} threads, {load}");
            let in_order = format!("{row}, in order");
            tell!(
                rounds,
                [&row, &format!("{row}, most over fewest")],
                together[false](threads, turns, time)
            );
            tell!(
                rounds,
                [&in_order, &format!("{in_order}, most over fewest")],
                together[true](threads, turns, time)
            );
        }
    }
    tell!(rounds, ["ping-pong, a round trip"], ping_pong());
    for waiters in [4, 32] {
        tell!(
            rounds,
            [&format!("broadcast to {waiters}")],
            broadcast(waiters)
        );
    }
    for pairs in [1, 4] {
        tell!(
            rounds,
            [&format!("queue, {pairs} to {pairs}")],
            queue(pairs)
        );
    }
}
