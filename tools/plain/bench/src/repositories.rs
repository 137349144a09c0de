//! `apply COUNT BATCH ROUNDS`: writes in a repository, so many a batch.

use crate::cid;
use crate::clock::timed;
use crate::made::{DID, Plan, record, tid};
use crate::repository::{Repository, Stamp, Write};
use crate::shards::Shards;

/// A repository with the number of its last batch.
pub struct Desk<'s, 'p> {
    pub repository: Repository<'s>,
    pub plan: &'p Plan,
    pub last: u64,
}

impl<'s, 'p> Desk<'s, 'p> {
    pub fn open(shards: &'s Shards, plan: &'p Plan) -> Desk<'s, 'p> {
        Desk { repository: Repository::open(0, shards, 1_048_576).expect("room"), plan, last: 0 }
    }

    /// The next batches of puts or deletes of the keys at these places, so many a batch.
    pub fn batches(&mut self, places: &[usize], size: usize, is_put: bool) -> Vec<(Stamp, Vec<Write>)> {
        let plan = self.plan;
        let write = |place: &usize| Write { key: plan.pairs[*place].0.clone(), record: is_put.then(|| record(*place)) };
        let batch = |some: &[usize]| {
            self.last += 1;
            (Stamp { did: DID.to_vec(), rev: tid(self.last).to_vec() }, some.iter().map(write).collect())
        };
        places.chunks(size).map(batch).collect()
    }

    #[inline(never)]
    pub fn apply_all(&mut self, batches: Vec<(Stamp, Vec<Write>)>) {
        for (stamp, writes) in batches {
            self.repository.apply(stamp, writes).expect("a lawful batch");
        }
    }

    pub fn change_all(&mut self, places: &[usize], is_put: bool) {
        for some in places.chunks(100) {
            let batches = self.batches(some, 100, is_put);
            self.apply_all(batches);
        }
    }
}

/// How many bytes the process has in memory, as Linux tells it, in pages of 4,096 bytes.
fn resident() -> Option<usize> {
    let text = std::fs::read_to_string("/proc/self/statm").ok()?;
    Some(4096 * text.split(' ').nth(1)?.parse::<usize>().ok()?)
}

pub fn run(count: usize, size: usize, rounds: usize) {
    let plan = Plan::of(count, 10_000);
    let shards = Shards::new(1_048_576);
    let mut desk = Desk::open(&shards, &plan);
    let before = resident();
    desk.change_all(&plan.first, true);
    let grown = resident().zip(before).and_then(|(after, before)| after.checked_sub(before));
    let mut least = [u64::MAX; 2];
    for _ in 0..rounds {
        for (is_put, least) in [true, false].into_iter().zip(&mut least) {
            let batches = desk.batches(&plan.new, size, is_put);
            let ((), nanos) = timed(|| desk.apply_all(batches));
            *least = nanos.min(*least);
        }
    }
    let writes = plan.new.len();
    println!("{count} keys, {writes} writes, {size} a batch");
    for (name, nanos) in ["put", "delete"].into_iter().zip(least) {
        println!("{name}: {} ns a write at the least", nanos / (writes as u64).max(1));
    }
    if let Some(grown) = grown {
        println!("{} bytes of memory a key and its record of 288 bytes", grown / count.max(1));
    }
    if let Some(commit) = desk.repository.commit {
        println!("the last commit is {}", cid::text(&commit));
    }
}
