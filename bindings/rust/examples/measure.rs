//! What the calls cost: cargo run --release --example measure
//!
//! It prints the least of five turns of each job. With the name of one and a number of rounds, 1 or 2, it does that alone, so that
//! valgrind can count its instructions: those of two rounds without those of one are a round's. `tree` changes a host's own nodes,
//! which are hashed once to check them, and `known` nodes that the host knows; `writes` does the puts and deletes of
//! `make bench ARGS="apply 10000 SIZE ROUNDS"`, and prints the last commit, as that does.
#[path = "measured/plan.rs"]
mod plan;

use plan::Plan;
use std::collections::HashMap;
use std::convert::Infallible;
use std::hint::black_box;
use std::time::Instant;
use tizulgech::{Cid, Repository, Stamp, Write, check_record, is_key, tree};

/// How many keys a repository has before puts are measured, how many are put in a round, and how many keys there are.
pub const FILLED: usize = 10_000;
pub const PUTS: usize = 1000;
pub const ALL: usize = FILLED + 2 * PUTS;
pub const DID: &str = "did:web:example.com";

/// A key, in no order.
pub fn key(number: usize) -> String {
    format!("app.bsky.feed.post/{}", &Cid::of(&number.to_le_bytes()).to_string()[20..33])
}

/// A record of 295 bytes.
pub fn record(number: usize) -> Vec<u8> {
    let text = format!("{number:0>216}");
    let rest = b"\x65$type\x72app.bsky.feed.post\x65langs\x81\x62en\x69createdAt\x78\x182023-11-14T22:13:20.000Z";
    [b"\xa4\x64text\x78\xd8", text.as_bytes(), rest].concat()
}

pub fn tid(number: usize) -> String {
    let letters = b"234567abcdefghijklmnopqrstuvwxyz";
    (0..13).rev().map(|place| letters[(number >> (5 * place)) % 32] as char).collect()
}

/// Keys with records, of which the first ones fill a repository.
pub fn writes(count: usize) -> Vec<(String, Vec<u8>)> {
    (0..count).map(|number| (key(number), record(number))).collect()
}

fn batches<'a>(writes: &'a [(String, Vec<u8>)], size: usize) -> impl Iterator<Item = Vec<Write<'a>>> {
    writes.chunks(size).map(|batch| batch.iter().map(|(key, record)| Write::Put(key, record)).collect())
}

pub fn calls(rounds: usize) -> usize {
    for _ in 0..rounds * 100_000 {
        black_box(is_key(black_box("app.bsky.feed.post/3jzfcijpj2z2a")));
    }
    rounds * 100_000
}

pub fn numbers(rounds: usize) -> usize {
    let repository = Repository::open(1).unwrap();
    for _ in 0..rounds * 100_000 {
        black_box(repository.number());
    }
    rounds * 100_000
}

pub fn records(rounds: usize, writes: &[(String, Vec<u8>)]) -> usize {
    for _ in 0..rounds {
        for (_, record) in &writes[..PUTS] {
            check_record(record).unwrap();
            black_box(Cid::of(record));
        }
    }
    rounds * PUTS
}

/// A repository of the first writes.
pub fn filled(writes: &[(String, Vec<u8>)]) -> Repository {
    let mut repository = Repository::open(1_000_000).unwrap();
    for (turn, batch) in batches(&writes[..FILLED], 1000).enumerate() {
        repository.apply(Stamp { did: DID, rev: &tid(turn + 1) }, &batch).unwrap();
    }
    repository
}

/// Puts the other writes by batches of a size.
pub fn apply(repository: &mut Repository, rounds: usize, size: usize, writes: &[(String, Vec<u8>)]) -> usize {
    for (turn, batch) in batches(&writes[FILLED..FILLED + rounds * PUTS], size).enumerate() {
        repository.apply(Stamp { did: DID, rev: &tid(turn + 1000) }, &batch).unwrap();
    }
    rounds * PUTS
}

pub type Nodes = (Cid, HashMap<Cid, Vec<u8>>);

fn change<N: tree::Node>(nodes: &mut Nodes, given: impl Fn(Cid, Vec<u8>) -> N, writes: &[(String, Cid)]) {
    let mut changes: Vec<_> = writes.iter().map(|(key, cid)| tree::Change { key: key.as_bytes(), value: Some(*cid) }).collect();
    changes.sort_unstable_by_key(|change| change.key);
    let node = |cid: &Cid| Ok::<_, Infallible>(nodes.1.get(cid).cloned().map(|node| given(*cid, node)));
    let edit = tree::apply(node, &nodes.0, &changes).unwrap();
    for cid in &edit.drop {
        nodes.1.remove(cid);
    }
    nodes.1.extend(edit.add);
    nodes.0 = edit.root;
}

/// A node of which its map says that it is the one of its CID.
fn known(cid: Cid, node: Vec<u8>) -> tree::Known {
    // SAFETY: it stands under the CID that the library told with it.
    unsafe { tree::Known::of(cid, node) }
}

/// A host's own nodes of the tree of the first keys.
pub fn nodes(writes: &[(String, Cid)]) -> Nodes {
    let root = Cid::of(tree::EMPTY_NODE);
    let mut nodes = (root, HashMap::from([(root, tree::EMPTY_NODE.to_vec())]));
    writes[..FILLED].chunks(1000).for_each(|batch| change(&mut nodes, known, batch));
    nodes
}

/// Puts the other keys by batches of a size, over nodes that are handed in in this form.
pub fn changes<N: tree::Node>(
    nodes: &mut Nodes,
    given: impl Fn(Cid, Vec<u8>) -> N,
    rounds: usize,
    size: usize,
    writes: &[(String, Cid)],
) -> usize {
    writes[FILLED..FILLED + rounds * PUTS].chunks(size).for_each(|batch| change(nodes, &given, batch));
    rounds * PUTS
}

/// A job, and the seconds that so many rounds of it take, without what comes before them, for each of what it does.
pub fn seconds(job: &str, rounds: usize) -> f64 {
    measured(job, rounds).0
}

/// The same, and the last commit of `writes`.
pub fn measured(job: &str, rounds: usize) -> (f64, Option<Cid>) {
    let writes = writes(ALL);
    let cids: Vec<(String, Cid)> = writes.iter().map(|(key, record)| (key.clone(), Cid::of(record))).collect();
    let (what, size) = job.split_once('-').map_or((job, 1), |(what, size)| (what, size.parse().expect("a size")));
    let (mut repository, mut nodes, mut plan) = (Repository::open(1).unwrap(), (cids[0].1, HashMap::new()), None);
    match what {
        "apply" => repository = filled(&writes),
        "tree" | "known" => nodes = self::nodes(&cids),
        "writes" => plan = Some(Plan::filled(FILLED)),
        _ => {}
    }
    let begun = Instant::now();
    let count = match what {
        "call" => calls(rounds),
        "number" => numbers(rounds),
        "records" => records(rounds, &writes),
        "apply" => apply(&mut repository, rounds, size, &writes),
        "tree" => changes(&mut nodes, |_, node| node, rounds, size, &cids),
        "known" => changes(&mut nodes, known, rounds, size, &cids),
        "writes" => plan.as_mut().expect("a plan").turn(rounds, size),
        _ => panic!("no job: {job}"),
    };
    (begun.elapsed().as_secs_f64() / count as f64, plan.and_then(|plan| plan.commit()))
}

pub const JOBS: [&str; 11] =
    ["call", "number", "records", "apply-1", "apply-100", "tree-1", "tree-100", "known-1", "known-100", "writes-1", "writes-100"];

#[allow(dead_code)]
fn main() {
    let mut words = std::env::args().skip(1);
    if let (Some(job), Some(rounds)) = (words.next(), words.next()) {
        let (seconds, commit) = measured(&job, rounds.parse().expect("a number of rounds"));
        println!("{job}: {:.1} ns", 1e9 * seconds);
        if let Some(commit) = commit {
            println!("the last commit is {commit}");
        }
        return;
    }
    for job in JOBS {
        let least = (0..5).map(|_| seconds(job, 2)).fold(f64::MAX, f64::min);
        println!("{job}: {:.1} ns", 1e9 * least);
    }
}
