//! What `bench notices COUNT SENDERS ROUNDS` does, over the `ArrayQueue` of Rust's crate `crossbeam-queue`.

use crossbeam_queue::ArrayQueue;
use std::env;
use std::thread;
use std::time::Instant;

/// How many notices the queue has room for.
const ROOM: usize = 1024;

#[derive(Clone, Copy)]
#[allow(dead_code)]
struct Notice {
    writer: u32,
    seq: u64,
    repo: u32,
    number: u64,
    root: [u8; 36],
}

/// Sends so many notices, each as soon as there is room.
fn send(queue: &ArrayQueue<Notice>, writer: u32, count: u64, root: [u8; 36]) {
    let mut sent = 0;
    while sent < count {
        let seq = sent + 1;
        let notice = Notice {
            writer,
            seq,
            repo: 0,
            number: seq,
            root,
        };
        match queue.push(notice) {
            Ok(()) => sent = seq,
            Err(_) => thread::yield_now(),
        }
    }
}

/// Takes so many notices: how many it took, and the sum of their `seq`.
fn take(queue: &ArrayQueue<Notice>, count: u64) -> (u64, u64) {
    let (mut received, mut sum) = (0, 0u64);
    while received < count {
        match queue.pop() {
            Some(notice) => {
                received += 1;
                sum = sum.wrapping_add(notice.seq);
            }
            None => thread::yield_now(),
        }
    }
    (received, sum)
}

fn main() {
    let words: Vec<String> = env::args().collect();
    let count: u32 = words[1].parse().expect("COUNT");
    let senders: u32 = words[2].parse().expect("SENDERS");
    let rounds: u32 = words[3].parse().expect("ROUNDS");
    let each = u64::from(count / senders.max(1));
    let root = [7; 36];
    let (mut received, mut sum, mut least) = (0, 0, u128::MAX);
    for _ in 0..rounds {
        let queue = ArrayQueue::new(ROOM);
        let start = Instant::now();
        (received, sum) = thread::scope(|scope| {
            for writer in 0..senders {
                let queue = &queue;
                scope.spawn(move || send(queue, writer, each, root));
            }
            take(&queue, each * u64::from(senders))
        });
        least = least.min(start.elapsed().as_nanos());
    }
    let nanos = least / u128::from(received).max(1);
    println!(
        "{received} received, their numbers add up to {sum}, {nanos} ns a notice at the least"
    );
}
