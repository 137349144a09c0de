//! What `msthost check`, `records` and `records --cids` do, over Rust's library: a file is read, each block is hashed, the tree
//! is listed and built anew, and each record is tested.

mod build;
mod car;
mod cbor;
mod cid;
mod commit;
mod sha256;
mod tree;

use cid::Blocks;
use commit::Commit;
use std::env;
use std::io::{self, BufWriter, Read, Write};
use std::process::ExitCode;
use tree::Pairs;

struct Repository<'f> {
    commit: Commit<'f>,
    pairs: Pairs<'f>,
    records: Vec<&'f [u8]>,
}

fn is_key(key: &[u8]) -> bool {
    let Some(slash) = key.iter().position(|c| *c == b'/') else {
        return false;
    };
    let (collection, name) = (&key[..slash], &key[slash + 1..]);
    let is_plain = |c: &u8| c.is_ascii_alphanumeric() || b".-".contains(c);
    (1..=317).contains(&collection.len())
        && collection.iter().all(is_plain)
        && (1..=512).contains(&name.len())
        && name.iter().all(|c| is_plain(c) || b"_:~".contains(c))
        && name != b"."
        && name != b".."
}

fn record<'f>(blocks: &Blocks<'f>, pairs: &Pairs<'f>, at: usize) -> Result<&'f [u8], String> {
    if !is_key(pairs.key(at)) {
        return Err("BadKey".into());
    }
    let record = blocks.get(pairs.value(at)).ok_or("NoRecord")?;
    cbor::is_record(record).map(|()| *record)
}

fn check(file: &[u8]) -> Result<Repository<'_>, String> {
    let (root, blocks) = car::read(file)?;
    let commit = commit::read(blocks.get(root).ok_or("NoCommit")?)?;
    let mut pairs = Pairs::default();
    tree::listed(&blocks, &mut pairs, commit.root, 128, true).ok_or("NotTheTree")?;
    if !tree::is_rebuilt(&blocks, &pairs, commit.root) {
        return Err("NotTheTree".into());
    }
    let records = (0..pairs.len())
        .map(|at| record(&blocks, &pairs, at).map_err(|fault| format!("record {at}: {fault}")))
        .collect::<Result<_, _>>()?;
    Ok(Repository { commit, pairs, records })
}

fn push_hex(out: &mut Vec<u8>, bytes: &[u8]) {
    const DIGITS: &[u8; 16] = b"0123456789abcdef";
    out.extend(bytes.iter().flat_map(|byte| [DIGITS[usize::from(byte >> 4)], DIGITS[usize::from(byte & 15)]]));
}

fn tell(found: &Repository<'_>, words: &[&str], out: &mut impl Write) -> io::Result<()> {
    let Repository { commit, pairs, records } = found;
    if words == ["check"] {
        let (did, rev) = (String::from_utf8_lossy(commit.did), String::from_utf8_lossy(commit.rev));
        return writeln!(out, "{did} {rev} {} {}", cid::text(commit.root), records.len());
    }
    let mut line = Vec::new();
    for (at, record) in records.iter().enumerate() {
        line.clear();
        line.extend_from_slice(pairs.key(at));
        line.push(b' ');
        if words == ["records"] {
            push_hex(&mut line, record);
        } else {
            line.extend_from_slice(cid::text(pairs.value(at)).as_bytes());
        }
        line.push(b'\n');
        out.write_all(&line)?;
    }
    Ok(())
}

fn main() -> io::Result<ExitCode> {
    let words: Vec<String> = env::args().skip(1).collect();
    let words: Vec<&str> = words.iter().map(String::as_str).collect();
    let mut file = Vec::new();
    io::stdin().lock().read_to_end(&mut file)?;
    match check(&file) {
        Ok(found) => {
            let mut out = BufWriter::with_capacity(1 << 16, io::stdout().lock());
            tell(&found, &words, &mut out)?;
            out.flush()?;
            Ok(ExitCode::SUCCESS)
        }
        Err(fault) => {
            eprintln!("msthost: {fault}");
            Ok(ExitCode::from(1))
        }
    }
}
