//! A small host of one repository: its nodes and records in maps, and an append log of what each batch did to them.
//!
//!     cargo run --example small_host -- FILE
//!
//! It opens the log, goes on from the root that stands there, accepts two batches, and is opened once more. A batch is accepted
//! once its entry stands whole in the log; one that was cut off was none. One process has a log at a time.
use std::collections::{BTreeMap, HashMap};
use std::convert::Infallible;
use std::fs::{File, OpenOptions};
use std::io::{Read, Seek, SeekFrom, Write};
use std::path::{Path, PathBuf};
use tizulgech::{Cid, Proof, Stamp, check_record, check_stamp, commit_bytes, is_repository_key, listing_car, tree, tree_root};

type Result<T> = std::result::Result<T, Box<dyn std::error::Error>>;

/// What a batch does: each key gets a record, or goes where there is none.
pub type Changes<'a> = BTreeMap<&'a str, Option<&'a [u8]>>;

pub struct Host {
    did: String,
    /// The revision of the last batch.
    pub rev: Option<String>,
    /// The root of the tree.
    pub root: Cid,
    /// The nodes of the tree, and no others.
    nodes: HashMap<Cid, Vec<u8>>,
    pub records: BTreeMap<String, Vec<u8>>,
    pub batches: u64,
    log: File,
    /// Where the next entry goes.
    end: u64,
}

impl Host {
    /// Opens a log, or begins one.
    pub fn open(did: &str, path: impl AsRef<Path>) -> Result<Host> {
        let mut log = OpenOptions::new().read(true).write(true).create(true).truncate(false).open(path)?;
        let mut bytes = Vec::new();
        log.read_to_end(&mut bytes)?;
        let root = Cid::of(tree::EMPTY_NODE);
        let nodes = HashMap::from([(root, tree::EMPTY_NODE.to_vec())]);
        let mut host = Host { did: did.into(), rev: None, root, nodes, records: BTreeMap::new(), batches: 0, log, end: 0 };
        let mut rest = Parts(&bytes);
        while let (Some(sum), Some(entry)) = (rest.next(), rest.next()) {
            match (Cid::of(entry).as_bytes() == sum, rest.0) {
                (true, _) => host.take(entry).ok_or("the log is not one of this host")?,
                // The last entry may have been cut off.
                (false, []) => break,
                (false, _) => return Err(format!("the log is damaged behind its first {} bytes", host.end).into()),
            }
            host.end = (bytes.len() - rest.0.len()) as u64;
        }
        host.log.set_len(host.end)?;
        Ok(host)
    }

    /// Accepts all changes of a batch, or none of them.
    pub fn apply(&mut self, rev: &str, changes: &Changes<'_>) -> Result<()> {
        check_stamp(self.rev.as_deref(), Stamp { did: &self.did, rev })?;
        for (key, record) in changes {
            check_record(record.unwrap_or(b"\xa0"))?;
            // A record is a map: major type 5.
            let is_record = record.is_none_or(|record| record[0] >> 5 == 5 && record.len() <= 1_048_576);
            if !is_record || !is_repository_key(key) {
                return Err(format!("a key or a record that no repository takes: {key}").into());
            }
        }
        let values = changes.iter().map(|(key, record)| tree::Change { key: key.as_bytes(), value: record.map(Cid::of) });
        let edit = tree::apply(|cid| self.node(cid), &self.root, &values.collect::<Vec<_>>())?;

        let mut entry = Vec::new();
        push(&mut entry, rev.as_bytes());
        push(&mut entry, edit.root.as_bytes());
        push(&mut entry, &edit.drop.iter().flat_map(|cid| *cid.as_bytes()).collect::<Vec<_>>());
        push(&mut entry, &changes.len().to_le_bytes());
        for (key, record) in changes {
            push(&mut entry, key.as_bytes());
            push(&mut entry, record.unwrap_or_default());
        }
        for (_, node) in &edit.add {
            push(&mut entry, node);
        }
        self.append(&entry)?;
        self.take(&entry).ok_or("an entry of this host's own")?;
        Ok(())
    }

    /// Writes an entry behind the last one; where that fails the log is as before.
    fn append(&mut self, entry: &[u8]) -> Result<()> {
        let mut bytes = Vec::new();
        push(&mut bytes, Cid::of(entry).as_bytes());
        push(&mut bytes, entry);
        self.log.seek(SeekFrom::Start(self.end))?;
        if let Err(fault) = self.log.write_all(&bytes).and_then(|()| self.log.sync_data()) {
            self.log.set_len(self.end)?;
            return Err(fault.into());
        }
        self.end += bytes.len() as u64;
        Ok(())
    }

    /// Does to the maps what an entry says.
    fn take(&mut self, entry: &[u8]) -> Option<()> {
        let mut parts = Parts(entry);
        let rev = String::from_utf8(parts.next()?.to_vec()).ok()?;
        self.root = Cid::from_bytes(parts.next()?.try_into().ok()?)?;
        for cid in parts.next()?.chunks(36) {
            self.nodes.remove(&Cid::from_bytes(cid.try_into().ok()?)?);
        }
        for _ in 0..u64::from_le_bytes(parts.next()?.try_into().ok()?) {
            let key = String::from_utf8(parts.next()?.to_vec()).ok()?;
            match parts.next()? {
                [] => self.records.remove(&key),
                record => self.records.insert(key, record.to_vec()),
            };
        }
        self.nodes.extend(parts.map(|node| (Cid::of(node), node.to_vec())));
        self.rev = Some(rev);
        self.batches += 1;
        Some(())
    }

    fn node(&self, cid: &Cid) -> std::result::Result<Option<&Vec<u8>>, Infallible> {
        Ok(self.nodes.get(cid))
    }

    /// Whether the root and the nodes are those of the tree of the records from scratch.
    pub fn is_whole(&self) -> Result<bool> {
        let pairs: Vec<(&String, Cid)> = self.records.iter().map(|(key, record)| (key, Cid::of(record))).collect();
        Ok(tree_root(&pairs)? == (self.root, self.nodes.len()))
    }

    /// The nodes on the way to a key: whoever knows the root can verify by them what it has under the key.
    pub fn prove(&self, key: &str) -> Result<Proof> {
        Ok(tree::path(|cid| self.node(cid), &self.root, key)?.0)
    }

    /// The commit of the last batch, which its owner signs.
    pub fn commit(&self) -> Result<Vec<u8>> {
        Ok(commit_bytes(self.stamp()?, &self.root)?)
    }

    /// All of it as one file.
    pub fn car(&self) -> Result<Vec<u8>> {
        Ok(listing_car(self.stamp()?, &self.records.iter().collect::<Vec<_>>())?)
    }

    fn stamp(&self) -> Result<Stamp<'_>> {
        Ok(Stamp { did: &self.did, rev: self.rev.as_deref().ok_or("no batch yet")? })
    }
}

/// Puts a part behind others: its length in eight bytes, and the part.
fn push(bytes: &mut Vec<u8>, part: &[u8]) {
    bytes.extend_from_slice(&(part.len() as u64).to_le_bytes());
    bytes.extend_from_slice(part);
}

/// The parts of some bytes.
struct Parts<'a>(&'a [u8]);

impl<'a> Iterator for Parts<'a> {
    type Item = &'a [u8];
    fn next(&mut self) -> Option<&'a [u8]> {
        let (length, rest) = self.0.split_first_chunk()?;
        let (part, rest) = rest.split_at_checked(u64::from_le_bytes(*length).try_into().ok()?)?;
        self.0 = rest;
        Some(part)
    }
}

/// The revision, or the record key, with this number.
pub fn tid(number: u64) -> String {
    let letters = b"234567abcdefghijklmnopqrstuvwxyz";
    (0..13).rev().map(|place| letters[(number >> (5 * place)) as usize % 32] as char).collect()
}

#[allow(dead_code)]
fn main() -> Result<()> {
    let path = std::env::args().nth(1).map_or(std::env::temp_dir().join("small_host.log"), PathBuf::from);
    let mut host = Host::open("did:web:example.com", &path)?;
    println!("begins at {}, {} records", host.root, host.records.len());
    let key = |number: u64| format!("app.bsky.feed.post/{}", tid(number));
    let next = host.batches + 1;
    let (one, two, three) = (key(3 * next), key(3 * next + 1), key(3 * next + 2));
    host.apply(&tid(next), &Changes::from([(&*one, Some(&b"\xa0"[..])), (&*two, Some(b"\xa0")), (&*three, Some(b"\xa0"))]))?;
    host.apply(&tid(next + 1), &Changes::from([(&*one, Some(&b"\xa1\x64text\x65hello"[..])), (&*two, None)]))?;

    drop(host);
    let host = Host::open("did:web:example.com", &path)?;
    assert!(host.is_whole()? && host.records.contains_key(&one) && !host.records.contains_key(&two));
    assert_eq!(host.prove(&one)?.verify(&host.root, &one)?, Some(Cid::of(b"\xa1\x64text\x65hello")));
    assert_eq!(host.prove(&two)?.verify(&host.root, &two)?, None);
    println!("a file of {} bytes, whose commit is {}", host.car()?.len(), Cid::of(&host.commit()?));
    println!("ends at {}, {} records", host.root, host.records.len());
    Ok(())
}
