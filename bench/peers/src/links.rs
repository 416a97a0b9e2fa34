//! Promises and futures of plain Rust, each pair over a value or a callback under std's Mutex, on an executor that keeps its jobs.

use std::collections::VecDeque;
use std::hint::black_box;
use std::mem;
use std::sync::{Arc, Mutex};
use std::time::Instant;

const LINKS: u64 = 100_000;

type Callback = Box<dyn FnOnce(u64) + Send>;

type Job = Box<dyn FnOnce() + Send>;

enum State {
    Start,
    Value(u64),
    Callback(Callback),
    Done,
}

struct Promise(Arc<Mutex<State>>);

struct Future(Arc<Mutex<State>>);

fn promise() -> (Promise, Future) {
    let core = Arc::new(Mutex::new(State::Start));
    (Promise(core.clone()), Future(core))
}

impl Promise {
    fn fulfil(self, value: u64) {
        let mut state = self.0.lock().unwrap();
        match mem::replace(&mut *state, State::Done) {
            State::Callback(callback) => {
                drop(state);
                callback(value);
            }
            _ => *state = State::Value(value),
        }
    }
}

impl Future {
    fn on(self, callback: Callback) {
        let mut state = self.0.lock().unwrap();
        match mem::replace(&mut *state, State::Done) {
            State::Value(value) => {
                drop(state);
                callback(value);
            }
            _ => *state = State::Callback(callback),
        }
    }

    fn then(self, executor: &Executor, step: impl FnOnce(u64) -> u64 + Send + 'static) -> Future {
        let (next, future) = promise();
        let executor = executor.clone();
        self.on(Box::new(move |value| {
            executor.add(Box::new(move || next.fulfil(step(value))));
        }));
        future
    }
}

#[derive(Clone, Default)]
struct Executor(Arc<Mutex<VecDeque<Job>>>);

impl Executor {
    fn add(&self, job: Job) {
        self.0.lock().unwrap().push_back(job);
    }

    fn drain(&self) {
        loop {
            let job = self.0.lock().unwrap().pop_front();
            match job {
                Some(job) => job(),
                None => return,
            }
        }
    }
}

/// Promised, continued, asked for and kept; then the continuation runs, and its outcome is added up.
fn link(executor: &Executor, value: u64, sum: &Arc<Mutex<u64>>) {
    let (to, future) = promise();
    let next = future.then(executor, |value| value.wrapping_add(1));
    let sum = sum.clone();
    next.on(Box::new(move |value| *sum.lock().unwrap() += value));
    to.fulfil(value);
    executor.drain();
}

pub fn run() {
    let executor = Executor::default();
    let sum = Arc::new(Mutex::new(0));
    let start = Instant::now();
    for value in 0..LINKS {
        link(&executor, black_box(value), &sum);
    }
    let nanos = start.elapsed().as_nanos() / u128::from(LINKS);
    println!("plain Rust over a Mutex: {nanos} ns a link (sum {})", sum.lock().unwrap());
}
