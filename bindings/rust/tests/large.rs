//! Large inputs, against what is made of them block by block or from scratch.
mod common;
#[allow(dead_code)]
#[path = "../src/sys.rs"]
mod sys;

use common::*;
use std::collections::{BTreeMap, BTreeSet};
use sys::Parts;
use tizulgech::*;

const KEYS: u64 = 10_000;

fn changes<'a>(drawn: &'a [(String, Option<Cid>)]) -> Vec<tree::Change<'a>> {
    drawn.iter().map(|(key, value)| tree::Change { key: key.as_bytes(), value: *value }).collect()
}

/// A host's nodes of the tree of these pairs, which are put by batches of a thousand.
fn nodes_of(pairs: &BTreeMap<String, Cid>) -> (Cid, Nodes) {
    let (mut root, mut nodes) = no_pairs();
    let drawn: Vec<(String, Option<Cid>)> = pairs.iter().map(|(key, value)| (key.clone(), Some(*value))).collect();
    for batch in drawn.chunks(1000) {
        root = change(&mut nodes, |n| tree::apply(known(n), &root, &changes(batch)).unwrap()).0;
    }
    (root, nodes)
}

/// A repository of the first records, by batches of a thousand.
fn filled(count: u64) -> (Repository, BTreeMap<String, Vec<u8>>) {
    let mut repository = Repository::open(100_000).unwrap();
    let records: Vec<(String, Vec<u8>)> = (0..count).map(|number| (key(number), record(number))).collect();
    for (turn, batch) in records.chunks(1000).enumerate() {
        let writes: Vec<Write> = batch.iter().map(|(key, record)| Write::Put(key, record)).collect();
        repository.apply(Stamp { did: DID, rev: &tid(turn as u64 + 1) }, &writes).unwrap();
    }
    (repository, records.into_iter().collect())
}

#[test]
fn cids() {
    // 100,000 records, some of them of many bytes, and none where there are none
    let records: Vec<Vec<u8>> =
        (0..100_000).map(|number| record(number).repeat(1 + number as usize % 1000 / 990 * 300)).collect();
    let cids = Cid::of_each(&records).unwrap();
    assert_eq!(cids.len(), records.len());
    assert!(cids.iter().zip(&records).all(|(cid, record)| *cid == Cid::of(record)));
    assert_eq!(Cid::of_each(&[b""; 0]), Ok(vec![]));
}

/// A batch of 1,000 over the nodes of 100,000 keys leaves the nodes of the tree from scratch.
#[test]
fn a_batch() {
    let mut pairs: BTreeMap<String, Cid> =
        (0..100_000).map(|number: u64| (key(number), Cid::of(&number.to_le_bytes()))).collect();
    let (root, mut nodes) = nodes_of(&pairs);
    assert_eq!((root, nodes.len()), of_scratch(&pairs));

    // new keys, other values, and keys that go
    let value = |number: u64| (number % 3 > 0).then(|| Cid::of(&[number as u8]));
    let drawn: BTreeMap<String, Option<Cid>> = (0..1000).map(|number| (key(number * 150), value(number))).collect();
    let drawn: Vec<(String, Option<Cid>)> = drawn.into_iter().collect();
    let hashed = tree::apply(from(&nodes), &root, &changes(&drawn)).unwrap();
    let (root, previous) = change(&mut nodes, |n| {
        let edit = tree::apply(known(n), &root, &changes(&drawn)).unwrap();
        assert_eq!(edit, hashed);
        edit
    });
    for ((key, value), before) in drawn.into_iter().zip(previous) {
        assert_eq!(pairs.get(&key).copied(), before);
        match value {
            Some(value) => pairs.insert(key, value),
            None => pairs.remove(&key),
        };
    }
    assert_eq!((root, nodes.len()), of_scratch(&pairs));
}

/// The nodes that changes need as `below` tells them, layer by layer.
fn gathered(nodes: &Nodes, root: &Cid, drawn: &[(String, Option<Cid>)]) -> Vec<Vec<Cid>> {
    let (mut left, mut layers) = (vec![(*root, 0..drawn.len())], Vec::new());
    while !left.is_empty() {
        let mut next = Vec::new();
        for (cid, range) in &left {
            let own = &drawn[range.clone()];
            let (keys, ends, values) = joined(own);
            let (mut out, mut size) = (vec![0; 2 * 52 * own.len()], 0);
            assert_eq!(sys::below(&nodes[cid], Parts { bytes: &keys, ends: &ends }, &values, &mut out, &mut size), 0);
            for link in out[..size].chunks(52) {
                let number = |at: usize| u64::from_le_bytes(link[at..at + 8].try_into().unwrap()) as usize;
                let first = range.start + number(36);
                next.push((Cid::from_bytes(link[..36].try_into().unwrap()).unwrap(), first..first + number(44)));
            }
        }
        layers.push(left.into_iter().map(|(cid, _)| cid).collect());
        left = next;
    }
    layers
}

/// Keys one after another, where each ends, and 36 bytes for each.
fn joined(drawn: &[(String, Option<Cid>)]) -> (Vec<u8>, Vec<usize>, Vec<u8>) {
    let (mut keys, mut ends, mut values) = (Vec::new(), Vec::new(), Vec::new());
    for (key, value) in drawn {
        keys.extend(key.as_bytes());
        ends.push(keys.len());
        values.extend(value.map_or([0; 36], |cid| *cid.as_bytes()));
    }
    (keys, ends, values)
}

/// What one call says to changes over these nodes alone, all of them known.
fn applied(nodes: &Nodes, given: &[Cid], root: &Cid, drawn: &[(String, Option<Cid>)]) -> u8 {
    let (keys, ends, values) = joined(drawn);
    let (mut bytes, mut node_ends, mut cids) = (Vec::new(), Vec::new(), Vec::new());
    for cid in given {
        bytes.extend(&nodes[cid]);
        node_ends.push(bytes.len());
        cids.extend(cid.as_bytes());
    }
    let (nodes, keys) = (Parts { bytes: &bytes, ends: &node_ends }, Parts { bytes: &keys, ends: &ends });
    sys::tree_apply(nodes, &cids, root.as_bytes(), keys, &values, &mut [0; 36], &mut vec![0; 1 << 22], &mut 0)
}

/// What `below` tells is each node once, and with these nodes one call is enough: thousands of deletes take no more calls than puts.
#[test]
fn deletes() {
    let pairs: BTreeMap<String, Cid> = (0..KEYS).map(|number| (key(number), Cid::of(&number.to_le_bytes()))).collect();
    let (root, nodes) = nodes_of(&pairs);
    let mut random = Random(17);
    for count in [1, 2, 10, 100, 1000, 5000, KEYS] {
        for puts in [0, 1, 3] {
            let drawn: BTreeMap<String, Option<Cid>> = (0..count)
                .map(|number| {
                    (
                        key(if count == KEYS { number } else { random.below(2 * KEYS) }),
                        (random.below(4) < puts).then(|| Cid::of(b"new")),
                    )
                })
                .collect();
            let drawn: Vec<(String, Option<Cid>)> = drawn.into_iter().collect();
            let asked = gathered(&nodes, &root, &drawn).concat();
            assert_eq!(applied(&nodes, &asked, &root, &drawn), 0);
            assert_eq!(asked.iter().collect::<BTreeSet<_>>().len(), asked.len(), "a node is told twice");
            // An edit asks for them in this order, and for no other one.
            let mut order = Vec::new();
            let node = |cid: &Cid| {
                order.push(*cid);
                Ok::<_, ()>(nodes.get(cid))
            };
            tree::apply(node, &root, &changes(&drawn)).unwrap();
            assert_eq!(order, asked);
        }
    }
    // all keys go at once, and in three batches
    let gone: Vec<(String, Option<Cid>)> = pairs.keys().map(|key| (key.clone(), None)).collect();
    let edit = tree::apply(known(&nodes), &root, &changes(&gone)).unwrap();
    assert_eq!((edit.root, edit.drop.len(), edit.add.len()), (Cid::of(tree::EMPTY_NODE), nodes.len(), 1));
    let (mut root, mut left, mut pairs) = (root, nodes, pairs);
    for part in 0..3 {
        let batch: Vec<(String, Option<Cid>)> = gone.iter().skip(part).step_by(3).cloned().collect();
        let (next, previous) = change(&mut left, |n| tree::apply(from(n), &root, &changes(&batch)).unwrap());
        for ((key, _), before) in batch.iter().zip(previous) {
            assert_eq!(pairs.remove(key), before);
        }
        root = next;
        assert_eq!((root, left.len()), of_scratch(&pairs));
    }
}

/// The links of a node of 10,000 entries, all of them of one layer.
#[test]
fn links() {
    let numbers = (0..).filter(|number| layer(key(*number)) == 0).take(KEYS as usize);
    let pairs: BTreeMap<String, Cid> = numbers.map(|number: u64| (key(number), Cid::of(&number.to_le_bytes()))).collect();
    let (root, nodes) = nodes_of(&pairs);
    assert_eq!(nodes.len(), 1);
    let node = &nodes[&root];
    let (mut out, mut size) = (vec![0; 37 * pairs.len()], 0);
    assert_eq!((sys::links(node, &mut out[1..], &mut size), size), (251, out.len()));
    assert_eq!((sys::links(node, &mut out, &mut size), size), (0, out.len()));
    let wanted: Vec<u8> = pairs.values().flat_map(|cid| [&[0], &cid.as_bytes()[..]].concat()).collect();
    assert_eq!(out, wanted);
    assert_eq!(sys::links(&node[..node.len() - 1], &mut out, &mut size), 30);
}

/// All keys in pages, and the file in sections, of a repository of 10,000 records.
#[test]
fn pages_and_sections() {
    let (repository, records) = filled(KEYS);
    let pairs: Vec<(Vec<u8>, Cid)> = repository.pairs("").collect();
    assert!(
        pairs.iter().map(|(key, cid)| (&key[..], *cid)).eq(records.iter().map(|(key, record)| (key.as_bytes(), Cid::of(record))))
    );
    let parts: Vec<Vec<u8>> = repository.car_parts().map(Result::unwrap).collect();
    assert!(parts.len() > KEYS as usize);
    assert_eq!(parts.concat(), repository.car().unwrap());
}

/// The proofs of 10,000 changes in a repository of 20,000 records, forward and back, and with anything else told they are none.
#[test]
fn proofs_of_changes() {
    let (mut repository, records) = filled(2 * KEYS);
    // every second key gets another record or goes, and others come
    let made: BTreeMap<String, Option<Vec<u8>>> = (0..KEYS)
        .map(|number| match number % 4 {
            0 => (key(2 * number), None),
            3 => (key(2 * KEYS + number), Some(record(number))),
            _ => (key(2 * number), Some(record(3 * KEYS + number))),
        })
        .collect();
    let made: Vec<(String, Option<Vec<u8>>)> = made.into_iter().collect();
    let value = |record: Option<&Vec<u8>>| record.map(|record| Cid::of(record));
    let told = made.iter().map(|(key, after)| KeyChange {
        key: key.as_bytes(),
        before: value(records.get(key)),
        after: value(after.as_ref()),
    });
    let told: Vec<KeyChange> = told.collect();
    assert_eq!(told.len() as u64, KEYS);
    let asked: Vec<tree::Change> = told.iter().map(|it| tree::Change { key: it.key, value: it.after }).collect();
    let proven = repository.prove_change(&asked).unwrap();
    let writes = made.iter().map(|(key, record)| record.as_ref().map_or(Write::Delete(key), |record| Write::Put(key, record)));
    let applied = repository.apply(Stamp { did: DID, rev: &tid(1000) }, &writes.collect::<Vec<_>>()).unwrap();
    let (before, after, last) = (applied.previous, applied.root, told.len() - 1);
    assert_eq!((proven.after, &proven.changes), (after, &told));
    let inversion = repository.prove_inversion(&told).unwrap();
    assert_eq!(proven.proof.verify(&before, &after, &told), Ok(()));
    assert_eq!(inversion.verify(&before, &after, &told), Ok(()));

    let (mut fewer, mut less) = (proven.proof.clone(), inversion.clone());
    let gone = [fewer.nodes.pop().unwrap(), less.nodes.pop().unwrap()].map(|node| Cid::of(&node));
    assert_eq!(fewer.verify(&before, &after, &told), Err(ChangeFault::Missing(gone[0])));
    assert_eq!(less.verify(&before, &after, &told), Err(ChangeFault::Missing(gone[1])));

    let mut later = told.clone();
    later[last].after = Some(Cid::of(b"another"));
    assert_eq!(proven.proof.verify(&before, &after, &later), Err(ChangeFault::OtherRoot));
    assert_eq!(inversion.verify(&before, &after, &later), Err(ChangeFault::OtherValue(last)));
    assert_eq!(repository.prove_inversion(&later), Err(ProvingFault::OtherValue(last)));
    let mut earlier = told.clone();
    earlier[last].before = Some(Cid::of(b"another"));
    assert_eq!(proven.proof.verify(&before, &after, &earlier), Err(ChangeFault::OtherValue(last)));
    assert_eq!(inversion.verify(&before, &after, &earlier), Err(ChangeFault::OtherRoot));
}

/// Many nodes with the CIDs of some: an answer is the same whichever are known.
#[test]
fn some_known() {
    let pairs: BTreeMap<String, Cid> = (0..KEYS).map(|number| (key(number), Cid::of(&number.to_le_bytes()))).collect();
    let (root, nodes) = nodes_of(&pairs);
    let nodes: Vec<(Cid, Vec<u8>)> = nodes.into_iter().collect();
    let ends: Vec<usize> = nodes
        .iter()
        .scan(0, |end, (_, node)| {
            Some({
                *end += node.len();
                *end
            })
        })
        .collect();
    let bytes: Vec<u8> = nodes.iter().flat_map(|(_, node)| node.clone()).collect();
    let cids: Vec<u8> = nodes.iter().flat_map(|(cid, _)| *cid.as_bytes()).collect();
    let (key, value) = (key(KEYS), *Cid::of(b"").as_bytes());
    let apply = |count: usize| {
        let (mut out, mut size) = (vec![0; 1 << 16], 0);
        let number = sys::tree_apply(
            Parts { bytes: &bytes, ends: &ends },
            &cids[..36 * count],
            root.as_bytes(),
            Parts { bytes: key.as_bytes(), ends: &[key.len()] },
            &value,
            &mut [0; 36],
            &mut out,
            &mut size,
        );
        assert_eq!(number, 0);
        out.truncate(size);
        out
    };
    let told = apply(0);
    for count in [1, 2, 3, 4, 5, nodes.len() / 2, nodes.len() - 1, nodes.len()] {
        assert_eq!(apply(count), told);
    }
    assert_eq!(of_scratch(&pairs), (root, nodes.len()));
}
