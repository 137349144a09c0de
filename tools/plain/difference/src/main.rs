//! What `bench difference ROUNDS` does, by two cursors that go over both trees in the order of the keys: where both stand at one link it
//! is passed over, else the higher link is opened. The table of nodes is an ordered map, as there.

#[path = "../../export/src/build.rs"]
mod build;
#[allow(dead_code)]
#[path = "../../export/src/cid.rs"]
mod cid;
mod cursor;
#[path = "../../export/src/sha256.rs"]
mod sha256;

use build::build;
use cid::Cid;
use cursor::{Cursor, Head, Nodes};
use std::cmp::Ordering;
use std::collections::HashSet;
use std::hash::BuildHasherDefault;
use std::io::{self, Read};
use std::time::Instant;

type Pairs = Vec<(Vec<u8>, Cid)>;
type Cids<'a> = HashSet<&'a Cid, BuildHasherDefault<cid::OfDigest>>;

struct Change {
    key: Vec<u8>,
    before: Option<Cid>,
    after: Option<Cid>,
}

struct Difference<'a> {
    changes: Vec<Change>,
    come: Vec<&'a [u8]>,
    go: Vec<&'a Cid>,
    reads: usize,
}

fn cid_in(text: &str) -> Option<Cid> {
    let (mut bits, mut count, mut bytes) = (0u32, 0, Vec::new());
    for letter in text.strip_prefix('b')?.bytes() {
        let value = match letter {
            b'a'..=b'z' => letter - b'a',
            b'2'..=b'7' => letter - b'2' + 26,
            _ => return None,
        };
        bits = bits << 5 | u32::from(value);
        count += 5;
        if count >= 8 {
            count -= 8;
            bytes.push((bits >> count) as u8);
        }
    }
    bytes.try_into().ok()
}

/// The pairs of a listing, in the order of their keys.
fn pairs(listing: &str) -> Pairs {
    let pair = |line: &str| {
        let (key, text) = line.rsplit_once(' ')?;
        Some((key.as_bytes().to_vec(), cid_in(text)?))
    };
    let mut pairs: Pairs = listing.lines().filter_map(pair).collect();
    pairs.sort();
    pairs
}

/// The root of the tree of these pairs, whose nodes come to the table.
fn add_tree(nodes: &mut Nodes, pairs: &Pairs) -> Cid {
    let pair = |at: usize| (&pairs[at].0[..], &pairs[at].1);
    let root = build(pairs.len(), pair, |cid, block| {
        nodes.insert(*cid, block.into());
        true
    });
    root.expect("a root")
}

#[inline(never)]
fn compare<'a>(nodes: &'a Nodes, old: &'a Cid, new: &'a Cid) -> Difference<'a> {
    let (mut ours, mut theirs) = (Cursor::new(nodes, old), Cursor::new(nodes, new));
    let mut changes = Vec::new();
    loop {
        let order = match (ours.head(), theirs.head()) {
            (Head::End, Head::End) => break,
            (Head::Link(a, _), Head::Link(b, _)) if a == b => {
                ours.pass();
                theirs.pass();
                continue;
            }
            (Head::Link(_, high), Head::Link(_, low)) => {
                if high >= low {
                    ours.open();
                }
                if low >= high {
                    theirs.open();
                }
                continue;
            }
            (Head::Link(..), _) => {
                ours.open();
                continue;
            }
            (_, Head::Link(..)) => {
                theirs.open();
                continue;
            }
            (Head::Pair(_), Head::End) => Ordering::Less,
            (Head::End, Head::Pair(_)) => Ordering::Greater,
            (Head::Pair(a), Head::Pair(b)) => a.cmp(b),
        };
        let before = if order.is_le() { ours.value() } else { None };
        let after = if order.is_ge() { theirs.value() } else { None };
        if before != after {
            let key = if order.is_le() { ours.key() } else { theirs.key() };
            let key = key.to_vec();
            changes.push(Change { key, before: before.copied(), after: after.copied() });
        }
        if order.is_le() {
            ours.pass();
        }
        if order.is_ge() {
            theirs.pass();
        }
    }
    let reads = ours.opened.len() + theirs.opened.len();
    let (of_old, of_new): (Cids, Cids) = (ours.opened.iter().copied().collect(), theirs.opened.iter().copied().collect());
    let come = theirs.opened.iter().filter(|cid| !of_old.contains(**cid)).map(|cid| &nodes[*cid][..]).collect();
    let go = ours.opened.iter().filter(|cid| !of_new.contains(**cid)).copied().collect();
    Difference { changes, come, go, reads }
}

fn main() -> io::Result<()> {
    let rounds: u32 = std::env::args().nth(1).and_then(|it| it.parse().ok()).expect("ROUNDS");
    let mut text = String::new();
    io::stdin().lock().read_to_string(&mut text)?;
    let (old, new) = text.split_once("\n\n").unwrap_or((&text, ""));
    let mut nodes = Nodes::new();
    let (old, new) = (add_tree(&mut nodes, &pairs(old)), add_tree(&mut nodes, &pairs(new)));
    let (mut least, mut told) = (u128::MAX, String::new());
    for _ in 0..rounds {
        let start = Instant::now();
        let found = compare(&nodes, &old, &new);
        least = least.min(start.elapsed().as_nanos());
        let used: usize = found.changes.iter().filter(|it| it.before != it.after && !it.key.is_empty()).count();
        told = format!("{used} changes, {} nodes come, {} go, {} reads", found.come.len(), found.go.len(), found.reads);
    }
    println!("{told}, {least} ns at the least");
    Ok(())
}
