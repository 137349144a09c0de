//! What the jobs of `bench` do, over Rust's library: the same keys, records and batches, and the same lines but for the times.

mod batch;
#[path = "../../export/src/build.rs"]
mod build;
#[path = "../../export/src/cbor.rs"]
mod cbor;
#[path = "../../export/src/cid.rs"]
mod cid;
mod clock;
#[path = "../../export/src/commit.rs"]
mod commit;
mod edits;
mod events;
mod exports;
mod made;
mod messages;
mod node;
mod paths;
mod repositories;
mod repository;
#[path = "../../export/src/sha256.rs"]
mod sha256;
mod shards;
mod trees;

use std::{env, io};

const USAGE: &str = "usage: bench-baseline build|get|edit|apply|export|messages WORD.., as bench";

fn main() -> io::Result<()> {
    let words: Vec<String> = env::args().skip(1).collect();
    let (name, rest) = words.split_first().expect(USAGE);
    let numbers: Vec<usize> = rest.iter().map(|word| word.parse().expect(USAGE)).collect();
    match (&name[..], &numbers[..]) {
        ("build", [rounds]) => trees::run_build(*rounds)?,
        ("get", [count, rounds]) => trees::run_get(*count, *rounds),
        ("edit", [count, rounds]) => edits::run(*count, *rounds),
        ("apply", [count, size, rounds]) => repositories::run(*count, *size, *rounds),
        ("export", [count, rounds]) => exports::run(*count, *rounds),
        ("messages", [count, rounds]) => messages::run(*count, *rounds),
        _ => panic!("{USAGE}"),
    }
    Ok(())
}
