//! What the tests share: made keys and records, plain maps and trees from scratch, a host's own map of nodes.
#![allow(dead_code)]
use std::collections::{BTreeMap, HashMap};
use tizulgech::*;

pub const DID: &str = "did:web:example.com";

/// A small generator: the tests need no crate.
pub struct Random(pub u64);

impl Random {
    pub fn next(&mut self) -> u64 {
        self.0 ^= self.0 << 13;
        self.0 ^= self.0 >> 7;
        self.0 ^= self.0 << 17;
        self.0
    }

    pub fn below(&mut self, most: u64) -> u64 {
        self.next() % most
    }
}

pub fn hex(text: &str) -> Vec<u8> {
    (0..text.len()).step_by(2).map(|at| u8::from_str_radix(&text[at..at + 2], 16).unwrap()).collect()
}

/// Bytes as the table of cases has them: parts with a space between two, in which x*n stands for n times x.
pub fn data(text: &str) -> Vec<u8> {
    let part = |it: &str| it.split_once('*').map_or_else(|| hex(it), |(one, count)| hex(one).repeat(count.parse().unwrap()));
    text.split(' ').flat_map(part).collect()
}

pub fn key(number: u64) -> String {
    format!("app.bsky.feed.post/{}", &Cid::of(&number.to_be_bytes()).to_string()[20..33])
}

pub fn record(number: u64) -> Vec<u8> {
    [b"\xa1\x64text\x58\x20".as_slice(), &Cid::of(&number.to_le_bytes()).as_bytes()[4..]].concat()
}

pub fn tid(number: u64) -> String {
    let letters = b"234567abcdefghijklmnopqrstuvwxyz";
    (0..13).rev().map(|place| letters[(number >> (5 * place)) as usize % 32] as char).collect()
}

/// The root of the tree from scratch of these records.
pub fn scratch(records: &BTreeMap<String, Vec<u8>>) -> Cid {
    of_scratch(&records.iter().map(|(key, record)| (key.clone(), Cid::of(record))).collect()).0
}

/// The root and the number of nodes of the tree from scratch of these pairs.
pub fn of_scratch(pairs: &BTreeMap<String, Cid>) -> (Cid, usize) {
    tree_root(&pairs.iter().map(|(key, value)| (key.as_str(), *value)).collect::<Vec<_>>()).unwrap()
}

pub type Nodes = HashMap<Cid, Vec<u8>>;

/// The tree without entries.
pub fn no_pairs() -> (Cid, Nodes) {
    let root = tree::EMPTY_ROOT.parse().unwrap();
    (root, HashMap::from([(root, tree::EMPTY_NODE.to_vec())]))
}

/// A node without entries, over another one.
pub fn node_over(root: &Cid) -> Vec<u8> {
    [b"\xa2\x61e\x80\x61l\xd8\x2a\x58\x25\0", &root.as_bytes()[..]].concat()
}

/// A node of one pair, with a link before it and one behind it.
fn node_of(left: Option<&Cid>, key: &[u8], right: Option<&Cid>) -> Vec<u8> {
    let link = |cid: Option<&Cid>| cid.map_or(vec![0xf6], |cid| [&b"\xd8\x2a\x58\x25\0"[..], cid.as_bytes()].concat());
    let mut bytes = b"\xa2\x61e\x81\xa4\x61k".to_vec();
    bytes.push(0x40 + key.len() as u8);
    bytes.extend([key, b"\x61p\0\x61t", &link(right), b"\x61v", &link(Some(&Cid::of(b""))), b"\x61l", &link(left)].concat());
    bytes
}

/// A key, and three nodes, the first one over the others, that meet where the key goes, with their own keys in no order.
pub fn nodes_of_no_tree() -> (String, [Vec<u8>; 3]) {
    let high = (0..).map(|number| format!("b{number}")).find(|key| layer(key) == 1).unwrap();
    let (before, behind) = (node_of(None, b"z", None), node_of(None, b"a", None));
    let top = node_of(Some(&Cid::of(&before)), high.as_bytes(), Some(&Cid::of(&behind)));
    (high, [top, before, behind])
}

/// What a host's map of nodes gives.
pub fn from<'a>(nodes: &'a Nodes) -> impl FnMut(&Cid) -> Result<Option<&'a Vec<u8>>, ()> + 'a {
    |cid| Ok(nodes.get(cid))
}

/// The same of nodes that are known to be those of their CIDs.
pub fn known<'a>(nodes: &'a Nodes) -> impl FnMut(&Cid) -> Result<Option<tree::Known<&'a Vec<u8>>>, ()> + 'a {
    // SAFETY: they stand under the CIDs that the library told with them.
    |cid| Ok(nodes.get(cid).map(|node| unsafe { tree::Known::of(*cid, node) }))
}

/// Does an edit to a host's map of nodes, and answers the root and the values before it.
pub fn change(nodes: &mut Nodes, edit: impl FnOnce(&Nodes) -> tree::Edit) -> (Cid, Vec<Option<Cid>>) {
    let edit = edit(nodes);
    for cid in &edit.drop {
        assert!(nodes.remove(cid).is_some());
    }
    for (cid, node) in edit.add {
        assert_eq!(cid, Cid::of(&node));
        assert!(nodes.insert(cid, node).is_none());
    }
    (edit.root, edit.previous)
}
