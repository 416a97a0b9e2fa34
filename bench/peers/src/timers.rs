//! Timers of plain Rust with ids by which they are cancelled: an ordered map of what is due, and rings of buckets.

use std::collections::{BTreeMap, HashMap};
use std::hint::black_box;
use std::time::{Duration, Instant};

/// The longest delay, and the ticks in which all fire.
const SPAN: u64 = 65_536;

const OPERATIONS: u64 = 1_000_000;

const EMPTY_TICKS: u64 = 10_000_000;

trait Timers: Default {
    fn schedule(&mut self, delay: u64, id: u64);

    /// The tick at which the id was due.
    fn cancel(&mut self, id: u64) -> Option<u64>;

    /// The ids that are due then, in order of scheduling.
    fn tick(&mut self) -> Vec<u64>;
}

#[derive(Default)]
struct Ordered {
    now: u64,
    scheduled: u64,
    due: BTreeMap<(u64, u64), u64>,
    keys: HashMap<u64, (u64, u64)>,
}

impl Timers for Ordered {
    fn schedule(&mut self, delay: u64, id: u64) {
        let key = (self.now + delay, self.scheduled);
        self.scheduled += 1;
        self.due.insert(key, id);
        self.keys.insert(id, key);
    }

    fn cancel(&mut self, id: u64) -> Option<u64> {
        let key = self.keys.remove(&id)?;
        self.due.remove(&key);
        Some(key.0)
    }

    fn tick(&mut self) -> Vec<u64> {
        self.now += 1;
        let mut fired = Vec::new();
        while let Some(first) = self.due.first_entry().filter(|first| first.key().0 <= self.now) {
            let id = first.remove();
            self.keys.remove(&id);
            fired.push(id);
        }
        fired
    }
}

struct Waiting {
    id: u64,
    due: u64,
    serial: u64,
}

/// A bucket of ring r is 256^r ticks wide. An id that is cancelled leaves the map, and its bucket when the bucket's turn comes.
struct Ringed {
    now: u64,
    scheduled: u64,
    rings: [Vec<Vec<Waiting>>; 4],
    live: HashMap<u64, (u64, u64)>,
}

impl Default for Ringed {
    fn default() -> Ringed {
        let ring = || (0..256).map(|_| Vec::new()).collect();
        Ringed { now: 0, scheduled: 0, rings: [ring(), ring(), ring(), ring()], live: HashMap::new() }
    }
}

impl Ringed {
    fn put(&mut self, waiting: Waiting) {
        let ring = (waiting.due - self.now).max(1).ilog2() as usize / 8;
        let bucket = (waiting.due >> (8 * ring)) as usize % 256;
        self.rings[ring][bucket].push(waiting);
    }

    fn is_live(&self, waiting: &Waiting) -> bool {
        self.live.get(&waiting.id).is_some_and(|&(serial, _)| serial == waiting.serial)
    }
}

impl Timers for Ringed {
    fn schedule(&mut self, delay: u64, id: u64) {
        let (due, serial) = (self.now + delay, self.scheduled);
        self.scheduled += 1;
        self.live.insert(id, (serial, due));
        self.put(Waiting { id, due, serial });
    }

    fn cancel(&mut self, id: u64) -> Option<u64> {
        self.live.remove(&id).map(|(_, due)| due)
    }

    fn tick(&mut self) -> Vec<u64> {
        self.now += 1;
        for ring in (1..4).rev().filter(|ring| self.now.trailing_zeros() >= 8 * *ring as u32).collect::<Vec<usize>>() {
            let bucket = (self.now >> (8 * ring)) as usize % 256;
            let mut turned = std::mem::take(&mut self.rings[ring][bucket]);
            turned.drain(..).for_each(|waiting| self.put(waiting));
            self.rings[ring][bucket] = turned;
        }
        let bucket = self.now as usize % 256;
        if self.rings[0][bucket].is_empty() {
            return Vec::new();
        }
        let mut due = std::mem::take(&mut self.rings[0][bucket]);
        due.retain(|waiting| self.is_live(waiting));
        due.sort_unstable_by_key(|waiting| waiting.serial);
        let fired: Vec<u64> = due.drain(..).map(|waiting| waiting.id).collect();
        fired.iter().for_each(|id| drop(self.live.remove(id)));
        self.rings[0][bucket] = due;
        fired
    }
}

fn delay_of(id: u64) -> u64 {
    1 + (id.wrapping_mul(0x9e37_79b9_7f4a_7c15) >> 40) % SPAN
}

fn timed<A>(total: &mut Duration, work: impl FnOnce() -> A) -> A {
    let begun = Instant::now();
    let answer = black_box(work());
    *total += begun.elapsed();
    answer
}

fn measure<T: Timers>(what: &str, count: u64) {
    let (mut scheduling, mut firing, mut cancelling) = (Duration::ZERO, Duration::ZERO, Duration::ZERO);
    let (mut fired, mut cancelled) = (0, 0);
    let mut timers = T::default();
    for _ in 0..OPERATIONS / count {
        timed(&mut scheduling, || (0..count).for_each(|id| timers.schedule(delay_of(id), id)));
        timed(&mut firing, || (0..SPAN).for_each(|_| fired += timers.tick().len() as u64));
    }
    for _ in 0..OPERATIONS / count {
        (0..count).for_each(|id| timers.schedule(delay_of(id), id));
        timed(&mut cancelling, || {
            (0..count).for_each(|place| cancelled += u64::from(timers.cancel(place * 7919 % count).is_some()));
        });
        (0..SPAN).for_each(|_| drop(timers.tick()));
    }
    let each = |total: Duration, count: u64| total.as_nanos() as u64 / count.max(1);
    println!(
        "{what}, {count} timers: schedule {} ns, fire {} ns with the ticks, cancel {} ns each",
        each(scheduling, OPERATIONS / count * count),
        each(firing, fired),
        each(cancelling, cancelled)
    );
}

pub fn run() {
    for count in [10_000, 1_000_000] {
        measure::<Ringed>("plain rings and a map of ids", count);
        measure::<Ordered>("plain ordered map and a map of ids", count);
    }
    let mut timers = Ringed::default();
    let begun = Instant::now();
    let fired: usize = (0..EMPTY_TICKS).map(|_| timers.tick().len()).sum();
    println!("plain rings: {EMPTY_TICKS} empty ticks, {} ms, fired {fired}", begun.elapsed().as_millis());
}
