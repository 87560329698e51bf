//! Locks that are refused. Each ends its program, so no guard outlives its hold. The test runs itself as these programs.
use ligdrosa_lock_api::{Mutex, MutexGuard};
use std::{
    env, iter, mem,
    os::unix::process::ExitStatusExt,
    panic::{catch_unwind, AssertUnwindSafe},
    process::Command,
    sync::Arc,
};

const HELD: &str = "a thread locks a mutex that it holds already: the mutex is held";
const NO_NUMBER: &str = "a lock that may not fail is refused: threads, seats and locks";

/// What a program does with two guards, if it gets them: it ends without a signal.
fn has_guards<A, B>(_first: A, _second: B) -> ! {
    panic!("a lock that is refused returned or panicked");
}

/// Unlocks the mutex while the function runs, and catches any panic.
fn unlock_while<'a>(mutex: &'a Mutex<u64>, act: impl FnOnce() -> Option<MutexGuard<'a, u64>>) {
    let mut first = mutex.lock();
    let told = catch_unwind(AssertUnwindSafe(|| MutexGuard::unlocked(&mut first, act)));
    has_guards(first, told);
}

/// A name, what the program says, and what it does.
type Program = (&'static str, &'static str, fn(&Mutex<u64>));

const PROGRAMS: [Program; 5] = [
    ("a second lock", HELD, |mutex| {
        let first = mutex.lock();
        has_guards(first, catch_unwind(AssertUnwindSafe(|| mutex.lock())));
    }),
    ("unlocked, and a guard is kept", HELD, |mutex| {
        unlock_while(mutex, || Some(mutex.lock()));
    }),
    ("unlocked, and a guard is forgotten", HELD, |mutex| {
        unlock_while(mutex, || {
            mem::forget(mutex.lock());
            None
        });
    }),
    ("unlocked, and a panic leaves a guard", HELD, |mutex| {
        let mut kept = None;
        unlock_while(mutex, || {
            kept = Some(mutex.lock());
            panic!("while it is unlocked");
        });
    }),
    ("no number is left", NO_NUMBER, |mutex| {
        let other = Arc::new(ligdrosa::Mutex::new(()));
        let seats: Vec<_> = iter::from_fn(|| other.seat().ok()).collect();
        has_guards(seats, catch_unwind(AssertUnwindSafe(|| mutex.lock())));
    }),
];

#[test]
fn a_refused_lock_ends_the_program() {
    const PROGRAM: &str = "LIGDROSA_TEST_PROGRAM";
    const ABORTED: i32 = 6;
    for (name, says, runs) in PROGRAMS {
        match env::var(PROGRAM) {
            Ok(program) if program == name => runs(&Mutex::new(7)),
            Ok(_) => continue,
            Err(_) => {
                let mut program = Command::new(env::current_exe().unwrap());
                program.args(["--exact", "a_refused_lock_ends_the_program"]);
                program.arg("--nocapture").env(PROGRAM, name);
                let ended = program.output().unwrap();
                assert_eq!(ended.status.signal(), Some(ABORTED), "{name}");
                let text = String::from_utf8(ended.stderr).unwrap();
                assert!(text.contains(says), "{name}: {text}");
            }
        }
    }
}
