//! What one would take in plain Rust: an unbounded channel of crossbeam, promises over std's Mutex, a pool over crossbeam's queues, and timers
//! over std's collections.

mod channel;
mod links;
mod pool;
mod timers;

fn main() {
    match std::env::args().nth(1).as_deref() {
        Some("links") => links::run(),
        Some("messages") => channel::run(),
        Some("pool") => pool::run(std::env::args().nth(2).is_some()),
        Some("timers") => timers::run(),
        _ => eprintln!("peers links, messages, pool or timers"),
    }
}
