//! The keys, records and batches of `make bench ARGS="apply COUNT SIZE ROUNDS"` of the repository: who does both ends at the same
//! commit.
use tizulgech::{Cid, Repository, Stamp, Write};

const DID: &str = "did:plc:abcdefghijklmnopqrstuvwx";
const LETTERS: &[u8; 32] = b"234567abcdefghijklmnopqrstuvwxyz";
const COLLECTIONS: [(&str, u64); 5] = [
    ("app.bsky.feed.like/", 50),
    ("app.bsky.feed.post/", 25),
    ("app.bsky.feed.repost/", 10),
    ("app.bsky.graph.follow/", 13),
    ("app.bsky.graph.block/", 2),
];
/// What stands in a record after its text.
const AFTER_TEXT: &[u8] = b"\x65$type\x72app.bsky.feed.post\x65langs\x81\x62en\x69createdAt\x78\x182023-11-14T22:13:20.000Z";

/// Numbers that look random (SplitMix64).
struct Random(u64);

impl Random {
    fn next(&mut self) -> u64 {
        self.0 = self.0.wrapping_add(0x9e37_79b9_7f4a_7c15);
        let mixed = (self.0 ^ (self.0 >> 30)).wrapping_mul(0xbf58_476d_1ce4_e5b9);
        let mixed = (mixed ^ (mixed >> 27)).wrapping_mul(0x94d0_49bb_1331_11eb);
        mixed ^ (mixed >> 31)
    }
}

/// A number as a timestamp identifier.
fn tid(number: u64) -> String {
    (0..13).rev().map(|place| LETTERS[(number >> (5 * place)) as usize % 32] as char).collect()
}

fn collection(mut left: u64) -> &'static str {
    let found = COLLECTIONS.iter().find(|(_, share)| {
        let is_here = left < *share;
        left = left.saturating_sub(*share);
        is_here
    });
    found.expect("a weight below 100").0
}

/// The record with this number, of 288 bytes.
fn record(number: u64) -> Vec<u8> {
    let mut random = Random(number);
    let text: Vec<u8> = (0..209).map(|_| LETTERS[random.next() as usize % 32]).collect();
    [b"\xa4\x64text\x78\xd1", &text[..], AFTER_TEXT].concat()
}

/// So many keys, in their order.
fn keys(count: usize) -> Vec<String> {
    let mut random = Random(1);
    let step = 2_000_000_000_000 / (count as u64 + 1) + 1;
    let mut micros = 1_690_000_000_000_000_u64;
    let mut keys: Vec<String> = (0..count)
        .map(|_| {
            micros += random.next() % step + 1;
            let collection = collection(random.next() % 100);
            collection.to_owned() + &tid((micros * 1024) | (random.next() % 1024))
        })
        .collect();
    keys.sort();
    keys
}

/// A repository of so many keys with their records, and the keys that are put and deleted, a quarter as many, in batches.
pub struct Plan {
    new: Vec<(String, Vec<u8>)>,
    repository: Repository,
    last: u64,
}

impl Plan {
    pub fn filled(count: usize) -> Plan {
        let all = count + count / 4;
        let mut random = Random(11);
        let mut places: Vec<(u64, usize)> = (0..all).map(|place| (random.next(), place)).collect();
        places.sort_unstable();
        let keys = keys(all);
        let with_records = |(_, place): &(u64, usize)| (keys[*place].clone(), record(*place as u64));
        let (new, first) = places.split_at(count / 4);
        let first: Vec<(String, Vec<u8>)> = first.iter().map(with_records).collect();
        let repository = Repository::open(1_048_576).unwrap();
        let mut plan = Plan { new: new.iter().map(with_records).collect(), repository, last: 0 };
        let puts: Vec<Write> = first.iter().map(|(key, record)| Write::Put(key, record)).collect();
        puts.chunks(100).for_each(|batch| plan.apply(batch));
        plan
    }

    fn apply(&mut self, batch: &[Write]) {
        self.last += 1;
        self.repository.apply(Stamp { did: DID, rev: &tid(self.last) }, batch).unwrap();
    }

    /// Puts the new keys and deletes them, so many a batch, and answers how many writes that is.
    pub fn turn(&mut self, rounds: usize, size: usize) -> usize {
        let new = std::mem::take(&mut self.new);
        let puts: Vec<Write> = new.iter().map(|(key, record)| Write::Put(key, record)).collect();
        let deletes: Vec<Write> = new.iter().map(|(key, _)| Write::Delete(key)).collect();
        for _ in 0..rounds {
            puts.chunks(size).for_each(|batch| self.apply(batch));
            deletes.chunks(size).for_each(|batch| self.apply(batch));
        }
        self.new = new;
        rounds * 2 * self.new.len()
    }

    /// The last commit, which the records and all batches determine.
    pub fn commit(&self) -> Option<Cid> {
        self.repository.commit()
    }
}
