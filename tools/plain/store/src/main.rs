//! What `bench store COUNT ROUNDS` does, over the hash map of Rust's library.

use std::collections::HashMap;
use std::collections::hash_map::Entry;
use std::env;
use std::sync::Arc;

type Cid = [u8; 36];
type Shard = HashMap<Cid, (Arc<[u8]>, [u64; 16])>;

struct Hold {
    cid: Cid,
    #[allow(dead_code)]
    block: Arc<[u8]>,
    core: u32,
}

/// A CID whose digest is 32 bytes that look random (splitmix64), in place of SHA-256.
fn cid(number: u64) -> Cid {
    let mut cid = [0; 36];
    cid[..4].copy_from_slice(&[0x01, 0x71, 0x12, 0x20]);
    let mut state = number;
    for word in cid[4..].chunks_mut(8) {
        state = state.wrapping_add(0x9e37_79b9_7f4a_7c15);
        let mut mixed = state;
        mixed = (mixed ^ (mixed >> 30)).wrapping_mul(0xbf58_476d_1ce4_e5b9);
        mixed = (mixed ^ (mixed >> 27)).wrapping_mul(0x94d0_49bb_1331_11eb);
        word.copy_from_slice(&(mixed ^ (mixed >> 31)).to_le_bytes());
    }
    cid
}

fn acquire(shard: &mut Shard, limit: usize, core: u32, cid: Cid, block: Arc<[u8]>) -> Option<Hold> {
    let held = shard.len();
    match shard.entry(cid) {
        Entry::Occupied(mut entry) => {
            let (kept, cores) = entry.get_mut();
            if kept[..] != block[..] {
                return None;
            }
            cores[core as usize / 64] |= 1 << (core % 64);
            Some(Hold { cid, block: kept.clone(), core })
        }
        Entry::Vacant(place) => {
            if held >= limit {
                return None;
            }
            let mut cores = [0; 16];
            cores[core as usize / 64] |= 1 << (core % 64);
            place.insert((block.clone(), cores));
            Some(Hold { cid, block, core })
        }
    }
}

fn release(shard: &mut Shard, hold: Hold) {
    if let Some((_, cores)) = shard.get_mut(&hold.cid) {
        cores[hold.core as usize / 64] &= !(1 << (hold.core % 64));
        if cores.iter().all(|word| *word == 0) {
            shard.remove(&hold.cid);
        }
    }
}

fn main() {
    let words: Vec<String> = env::args().collect();
    let count: u64 = words[1].parse().expect("COUNT");
    let rounds: u64 = words[2].parse().expect("ROUNDS");
    let blocks: Vec<(Cid, Arc<[u8]>)> = (0..count)
        .map(|number| {
            let mut bytes = [0; 128];
            bytes[..8].copy_from_slice(&number.to_le_bytes());
            (cid(number), Arc::from(&bytes[..]))
        })
        .collect();
    let mut shard = Shard::new();
    let mut acquired = 0;
    for _ in 0..rounds {
        let mut holds = Vec::new();
        for (cid, block) in &blocks {
            if let Some(hold) = acquire(&mut shard, 1_048_576, 0, *cid, block.clone()) {
                holds.push(hold);
            }
        }
        acquired += holds.len();
        while let Some(hold) = holds.pop() {
            release(&mut shard, hold);
        }
    }
    println!("{acquired} acquired and released");
}
