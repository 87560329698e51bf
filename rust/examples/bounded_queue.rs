//! A bounded queue between threads, in the form that it has with the standard library: a mutex, two condition variables, and a
//! wait with a time limit. examples/c and examples/cpp have the same program.
use ligdrosa::{Condvar, Mutex, Refusal};
use std::{collections::VecDeque, thread, time::Duration};

const PLACES: usize = 16;
const PRODUCERS: u32 = 2;
const CONSUMERS: u32 = 2;
const NUMBERS_OF_EACH: u64 = 10_000;

struct State {
    numbers: VecDeque<u64>,
    is_closed: bool,
}

struct Queue {
    state: Mutex<State>,
    not_empty: Condvar,
    not_full: Condvar,
}

enum Taken {
    Number(u64),
    FoundClosed,
    TimedOut,
}

impl Queue {
    const fn new() -> Queue {
        Queue {
            state: Mutex::new(State {
                numbers: VecDeque::new(),
                is_closed: false,
            }),
            not_empty: Condvar::new(),
            not_full: Condvar::new(),
        }
    }

    /// Puts a number in, as soon as there is room.
    fn put(&self, number: u64) -> Result<(), Refusal> {
        let mut state = self.state.lock()?;
        self.not_full
            .wait_while(&mut state, |state| state.numbers.len() == PLACES)?;
        state.numbers.push_back(number);
        self.not_empty.notify_one();
        Ok(())
    }

    /// Closes the queue: no number is put in any more.
    fn close(&self) -> Result<(), Refusal> {
        self.state.lock()?.is_closed = true;
        self.not_empty.notify_all();
        Ok(())
    }

    /// Takes out the oldest number. If there is none, it waits for one, at most this long.
    fn take_for(&self, limit: Duration) -> Result<Taken, Refusal> {
        let mut state = self.state.lock()?;
        let is_missing = |state: &mut State| state.numbers.is_empty() && !state.is_closed;
        self.not_empty
            .wait_timeout_while(&mut state, limit, is_missing)?;
        let Some(number) = state.numbers.pop_front() else {
            return Ok(match state.is_closed {
                true => Taken::FoundClosed,
                false => Taken::TimedOut,
            });
        };
        self.not_full.notify_one();
        Ok(Taken::Number(number))
    }
}

static QUEUE: Queue = Queue::new();

fn produce() -> Result<(), Refusal> {
    (1..=NUMBERS_OF_EACH).try_for_each(|number| QUEUE.put(number))
}

/// The sum of what it takes. If no number comes for some time, it tries again.
fn consume() -> Result<u64, Refusal> {
    let mut sum = 0;
    loop {
        match QUEUE.take_for(Duration::from_millis(500))? {
            Taken::Number(number) => sum += number,
            Taken::FoundClosed => return Ok(sum),
            Taken::TimedOut => {}
        }
    }
}

fn main() -> Result<(), Refusal> {
    if let Taken::TimedOut = QUEUE.take_for(Duration::from_millis(10))? {
        println!("an empty queue: nothing came within 10 ms");
    }
    let producers: Vec<_> = (0..PRODUCERS).map(|_| thread::spawn(produce)).collect();
    let consumers: Vec<_> = (0..CONSUMERS).map(|_| thread::spawn(consume)).collect();
    for producer in producers {
        producer.join().expect("a producer")?;
    }
    QUEUE.close()?;
    let mut sum = 0;
    for consumer in consumers {
        sum += consumer.join().expect("a consumer")?;
    }
    println!("{PRODUCERS} producers, {CONSUMERS} consumers: the sum is {sum}");
    Ok(())
}
