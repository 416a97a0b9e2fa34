use std::thread;
use std::time::Instant;

const MESSAGES: u64 = 1_000_000;

pub fn run() {
    for senders in [1, 4] {
        let begun = Instant::now();
        let received = by_channel(senders);
        let nanos = begun.elapsed().as_nanos() as u64 / received.max(1);
        println!("plain channel, {senders} senders: {received} messages, {nanos} ns each");
    }
}

fn by_channel(senders: u64) -> u64 {
    let (sender, receiver) = crossbeam_channel::unbounded();
    thread::scope(|scope| {
        for _ in 0..senders {
            let sender = sender.clone();
            scope.spawn(move || (0..MESSAGES / senders).for_each(|number| sender.send(number).unwrap()));
        }
        drop(sender);
        receiver.iter().count() as u64
    })
}
