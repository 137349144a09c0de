//! The keys, records and stamps of `bench`, and which of them a repository has at first.

use crate::cid::{self, Cid};

const LETTERS: &[u8; 32] = b"234567abcdefghijklmnopqrstuvwxyz";
const COLLECTIONS: [(&[u8], u64); 5] = [
    (b"app.bsky.feed.like/", 50),
    (b"app.bsky.feed.post/", 25),
    (b"app.bsky.feed.repost/", 10),
    (b"app.bsky.graph.follow/", 13),
    (b"app.bsky.graph.block/", 2),
];
const AFTER_TEXT: &[u8] = b"\x65$type\x72app.bsky.feed.post\x65langs\x81\x62en\x69createdAt\x78\x182023-11-14T22:13:20.000Z";

pub const DID: &[u8] = b"did:plc:abcdefghijklmnopqrstuvwx";

/// Numbers that look random (SplitMix64).
struct Random(u64);

impl Random {
    fn next(&mut self) -> u64 {
        self.0 = self.0.wrapping_add(0x9e37_79b9_7f4a_7c15);
        let mixed = (self.0 ^ (self.0 >> 30)).wrapping_mul(0xbf58_476d_1ce4_e5b9);
        let mixed = (mixed ^ (mixed >> 27)).wrapping_mul(0x94d0_49bb_1331_11eb);
        mixed ^ (mixed >> 31)
    }
}

/// A number as a timestamp identifier.
pub fn tid(number: u64) -> [u8; 13] {
    let mut letters = [b'2'; 13];
    for (at, letter) in letters.iter_mut().rev().enumerate() {
        *letter = LETTERS[(number >> (5 * at)) as usize % 32];
    }
    letters
}

fn collection(mut left: u64) -> &'static [u8] {
    for (name, share) in COLLECTIONS {
        if left < share {
            return name;
        }
        left -= share;
    }
    COLLECTIONS[0].0
}

/// So many keys, in their order.
pub fn keys(count: usize) -> Vec<Vec<u8>> {
    let mut random = Random(1);
    let step = 2_000_000_000_000 / (count as u64 + 1) + 1;
    let mut micros = 1_690_000_000_000_000_u64;
    let mut keys: Vec<Vec<u8>> = (0..count)
        .map(|_| {
            micros += random.next() % step + 1;
            let collection = collection(random.next() % 100);
            let clock = random.next() % 1024;
            [collection, &tid((micros * 1024) | clock)].concat()
        })
        .collect();
    keys.sort();
    keys
}

/// The record with this number, of 288 bytes.
pub fn record(number: usize) -> Vec<u8> {
    let mut random = Random(number as u64);
    let text: Vec<u8> = (0..209).map(|_| LETTERS[random.next() as usize % 32]).collect();
    [b"\xa4\x64text\x78\xd1", &text[..], AFTER_TEXT].concat()
}

/// So many places in an order that looks random.
pub fn in_no_order(count: usize) -> Vec<usize> {
    let mut random = Random(11);
    let mut places: Vec<(u64, usize)> = (0..count).map(|place| (random.next(), place)).collect();
    places.sort_unstable();
    places.into_iter().map(|(_, place)| place).collect()
}

/// Pairs of keys and their records' CIDs, and by their places which are there at first, and which are then put and deleted.
pub struct Plan {
    pub pairs: Vec<(Vec<u8>, Cid)>,
    pub first: Vec<usize>,
    pub new: Vec<usize>,
}

impl Plan {
    /// So many keys, and a quarter as many more, at most so many, that are put and deleted.
    pub fn of(count: usize, most: usize) -> Plan {
        let new = (count / 4).min(most);
        let with_record = |(at, key)| (key, cid::of(&record(at)));
        let pairs: Vec<_> = keys(count + new).into_iter().enumerate().map(with_record).collect();
        let order = in_no_order(pairs.len());
        let (new, first) = order.split_at(new);
        Plan { pairs, first: first.to_vec(), new: new.to_vec() }
    }

    /// The places that are there at first, in the order of their keys.
    pub fn in_order(&self) -> Vec<usize> {
        let mut places = self.first.clone();
        places.sort_unstable();
        places
    }
}
