//! `messages COUNT ROUNDS`: the message of each batch of one put, written, checked, and its bytes hashed alone.

use crate::cid::{self, Cid};
use crate::clock::{of_nothing, timed};
use crate::events::{Op, Told, checked, undone_and_written, written};
use crate::made::{Plan, tid};
use crate::repositories::Desk;
use crate::shards::Shards;

/// How many messages there were, their bytes, how many were taken, a digest over all of them, and what they took.
struct Seen {
    messages: usize,
    bytes: usize,
    taken: usize,
    chain: Cid,
    took: [u64; 4],
}

/// Each key of a plan is put by a batch of its own, and the message of it written, checked and hashed.
fn round(desk: &mut Desk<'_, '_>) -> Seen {
    let mut seen = Seen { messages: 0, bytes: 0, taken: 0, chain: cid::of(b""), took: [0; 4] };
    let plan = desk.plan;
    for place in &plan.new {
        let (key, value) = &plan.pairs[*place];
        let before = desk.repository.tree.root;
        let since = tid(desk.last);
        let batches = desk.batches(&[*place], 1, true);
        desk.apply_all(batches);
        let op = Op { key, before: None, after: Some(*value) };
        let told = Told { seq: desk.last, time: b"2026-12-01T00:00:00Z", since: Some(&since), sig: &[7; 64] };
        let (message, to_write) = timed(|| written(&desk.repository, &before, &op, &told).expect("a message"));
        let (same, to_undo) = timed(|| undone_and_written(&desk.repository, &before, &op, &told));
        assert!(same.as_deref() == Ok(&message[..]));
        let (verdict, to_check) = timed(|| checked(&before, &message));
        let (digest, to_hash) = timed(|| cid::of(&message));
        seen.messages += 1;
        seen.bytes += message.len();
        seen.taken += usize::from(verdict == Ok(desk.repository.tree.root));
        seen.chain = cid::of(&[seen.chain, digest].concat());
        for (sum, nanos) in seen.took.iter_mut().zip([to_write, to_check, to_hash, to_undo]) {
            *sum += nanos;
        }
    }
    seen
}

pub fn run(count: usize, rounds: usize) {
    let plan = Plan::of(count, 1_000);
    let shards = Shards::new(1_048_576);
    let mut desk = Desk::open(&shards, &plan);
    desk.change_all(&plan.first, true);
    let (mut last, mut least, nothing) = (None, [u64::MAX; 4], of_nothing());
    for _ in 0..rounds {
        let seen = round(&mut desk);
        desk.change_all(&plan.new, false);
        for (least, nanos) in least.iter_mut().zip(seen.took) {
            *least = nanos.saturating_sub(nothing * seen.messages as u64).min(*least);
        }
        last = Some(seen);
    }
    let Some(Seen { messages, bytes, taken, chain, .. }) = last else {
        return println!("no rounds");
    };
    let [to_write, to_check, to_hash, to_undo] = least.map(|nanos| nanos / (messages as u64).max(1));
    println!("{count} keys, {messages} messages of {bytes} bytes in all, {taken} taken, {}", cid::text(&chain));
    println!("a message: {to_write} ns to write, {to_check} ns to check, {to_hash} ns to hash, at the least");
    println!("{to_undo} ns to write where the put is undone whole");
}
