//! Accounts between which threads transfer money as fast as they can, and an auditor that adds them up each millisecond. It
//! locks in order: it queues at once, and from there on no thread that queues later is served before it. examples/c and
//! examples/cpp have the same program.
use ligdrosa::{Mutex, Refusal};
use std::{
    sync::atomic::{AtomicBool, Ordering::Relaxed},
    thread,
    time::Duration,
};

const ACCOUNTS: usize = 4;
const IN_EACH: i64 = 100;
const THREADS: usize = 3;
const AUDITS: usize = 200;

static BANK: Mutex<[i64; ACCOUNTS]> = Mutex::new([IN_EACH; ACCOUNTS]);
static IS_OVER: AtomicBool = AtomicBool::new(false);

/// Transfers from each account to the next, until the audits are over.
fn transfer() -> Result<(), Refusal> {
    let mut from = 0;
    while !IS_OVER.load(Relaxed) {
        let mut accounts = BANK.lock()?;
        accounts[from] -= 1;
        from = (from + 1) % ACCOUNTS;
        accounts[from] += 1;
    }
    Ok(())
}

/// The sum of all accounts, between two transfers.
fn audit() -> Result<i64, Refusal> {
    Ok(BANK.lock_in_order()?.iter().sum())
}

fn main() -> Result<(), Refusal> {
    let threads: Vec<_> = (0..THREADS).map(|_| thread::spawn(transfer)).collect();
    let total = IN_EACH * ACCOUNTS as i64;
    for _ in 0..AUDITS {
        thread::sleep(Duration::from_millis(1));
        assert_eq!(audit()?, total);
    }
    IS_OVER.store(true, Relaxed);
    for thread in threads {
        thread.join().expect("a thread that transfers")?;
    }
    println!("{AUDITS} audits beside {THREADS} threads that transfer: each found {total}");
    Ok(())
}
