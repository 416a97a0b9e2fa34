use crossbeam_queue::SegQueue;
use crossbeam_utils::sync::{Parker, Unparker};
use crossbeam_utils::Backoff;
use std::sync::atomic::{AtomicBool, AtomicU64, AtomicUsize, Ordering::SeqCst};
use std::sync::Mutex;
use std::thread;
use std::time::Instant;

// What a worker ran, and where its turns led.
struct World {
    ran: u64,
    mixed: u64,
}

type Job = Box<dyn FnOnce(&mut World) + Send>;

// Three queues, and the workers that sleep.
#[derive(Default)]
struct Pool {
    queues: [SegQueue<Job>; 3],
    sleepers: Mutex<Vec<Unparker>>,
    asleep: AtomicUsize,
    is_closed: AtomicBool,
    ended: AtomicU64,
}

impl Pool {
    fn add(&self, queue: usize, job: Job) {
        self.queues[queue].push(job);
        if self.asleep.load(SeqCst) > 0 {
            if let Some(sleeper) = self.sleepers.lock().unwrap().pop() {
                self.asleep.fetch_sub(1, SeqCst);
                sleeper.unpark();
            }
        }
    }

    fn next(&self) -> Option<Job> {
        self.queues.iter().rev().find_map(SegQueue::pop)
    }

    fn close(&self) {
        self.is_closed.store(true, SeqCst);
        for sleeper in self.sleepers.lock().unwrap().iter() {
            sleeper.unpark();
        }
    }

    fn work(&self) -> u64 {
        let parker = Parker::new();
        let mut world = World { ran: 0, mixed: 1 };
        let mut is_noted = false;
        let mut backoff = Backoff::new();
        loop {
            let is_closed = self.is_closed.load(SeqCst);
            if let Some(job) = self.next() {
                job(&mut world);
                self.ended.fetch_add(1, SeqCst);
                backoff = Backoff::new();
            } else if is_closed {
                return if world.mixed == 0 { 0 } else { world.ran };
            } else if is_noted {
                parker.park();
                is_noted = false;
            } else if backoff.is_completed() {
                self.sleepers.lock().unwrap().push(parker.unparker().clone());
                self.asleep.fetch_add(1, SeqCst);
                is_noted = true;
            } else {
                backoff.snooze();
            }
        }
    }
}

fn make_job(number: u64, turns: u32) -> Job {
    Box::new(move |world| {
        for _ in 0..turns {
            world.mixed = world.mixed.wrapping_mul(6_364_136_223_846_793_005).wrapping_add(number);
        }
        world.ran += 1;
    })
}

// How many tasks ran.
fn run_tasks(workers: u64, tasks: u64, turns: u32, is_one_by_one: bool) -> u64 {
    let pool = Pool::default();
    thread::scope(|scope| {
        let workers: Vec<_> = (0..workers).map(|_| scope.spawn(|| pool.work())).collect();
        for id in 0..tasks {
            pool.add(id as usize % 3, make_job(id, turns));
            while is_one_by_one && pool.ended.load(SeqCst) <= id {
                thread::yield_now();
            }
        }
        pool.close();
        workers.into_iter().map(|worker| worker.join().unwrap()).sum()
    })
}

pub fn run(is_one_by_one: bool) {
    let rows = if is_one_by_one {
        vec![("one by one", 4, 5000, 0); 5]
    } else {
        vec![
            ("tiny", 1, 1_000_000, 0),
            ("tiny", 2, 1_000_000, 0),
            ("tiny", 4, 1_000_000, 0),
            ("2 microseconds", 1, 200_000, 1500),
            ("2 microseconds", 2, 200_000, 1500),
            ("2 microseconds", 4, 200_000, 1500),
        ]
    };
    for (what, workers, tasks, turns) in rows {
        let begun = Instant::now();
        let ran = run_tasks(workers, tasks, turns, is_one_by_one);
        let nanos = begun.elapsed().as_nanos() as u64 / ran.max(1);
        println!("plain pool, {what}, {workers} workers: {ran} tasks, {nanos} ns each");
    }
}
