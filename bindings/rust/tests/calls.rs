//! The calls against published values, and against plain maps with trees from scratch.
#[path = "common/car.rs"]
mod car;
mod common;

use common::*;
use std::collections::{BTreeMap, BTreeSet};
use tizulgech::*;

#[test]
fn published() {
    let e = Cid::of(tree::EMPTY_NODE);
    assert_eq!(e.to_string(), tree::EMPTY_ROOT);
    assert_eq!(tree::EMPTY_ROOT.parse(), Ok(e));
    assert_eq!("".parse::<Cid>(), Err(CidFault::BadLength));
    assert_eq!(tree::EMPTY_ROOT.replacen('b', "B", 1).parse::<Cid>(), Err(CidFault::BadPrefix));
    assert_eq!(tree::EMPTY_ROOT.replacen('a', "1", 1).parse::<Cid>(), Err(CidFault::BadLetter));
    assert_eq!(format!("{}n", &tree::EMPTY_ROOT[..58]).parse::<Cid>(), Err(CidFault::BadBits));
    assert_eq!(tree::EMPTY_ROOT.replacen("bafyrei", "bafkrei", 1).parse::<Cid>(), Err(CidFault::NotThisProfile));
    assert_eq!(Cid::from_bytes([0; 36]), None);
    assert_eq!(Cid::from_bytes(*e.as_bytes()), Some(e));
    for (key, want) in [
        ("", 0),
        ("asdf", 0),
        ("blue", 1),
        ("2653ae71", 0),
        ("88bfafc7", 2),
        ("2a92d355", 4),
        ("884976f5", 6),
        ("app.bsky.feed.post/454397e440ec", 4),
        ("app.bsky.feed.post/9adeb165882c", 8),
    ] {
        assert_eq!(layer(key), want, "{key}");
    }
    assert_eq!(check_record(&hex("a26162f6626161f5")), Ok(()));
    assert_eq!(check_record(&hex("a2626161f56162f6")), Err(RecordFault::KeyOrder));
    assert_eq!(check_record(&vec![0x81; 1_000_000]), Err(RecordFault::TooDeep));
    assert_eq!(check_record(&[]), Err(RecordFault::Truncated));
    assert!(
        is_key("a") && !is_key("") && !is_key("k".repeat(1025)) && is_repository_key("a.b.c/d") && !is_repository_key("a/b/c")
    );
}

#[test]
fn published_roots() {
    let mut count = 0;
    for line in include_str!("vectors.txt").lines() {
        let mut words = line.split_whitespace();
        let (root, value): (Cid, Cid) = (words.next().unwrap().parse().unwrap(), words.next().unwrap().parse().unwrap());
        let pairs: Vec<(&str, Cid)> = words.map(|k| (k, value)).collect();
        assert_eq!(tree_root(&pairs).unwrap().0, root);
        // the same one by one, from the last
        let (mut now, mut blocks) = no_pairs();
        for (key, value) in pairs.iter().rev() {
            now = change(&mut blocks, |b| tree::put(from(b), &now, key, value).unwrap()).0;
        }
        assert_eq!(now, root);
        count += 1;
    }
    assert_eq!(count, 11);
    let e = Cid::of(b"x");
    assert_eq!(tree_root(&[("b", e), ("a", e)]), Err(TreeFault::NotAscending));
}

/// Random batches of all kinds: the repository is the plain map, and its root that of the tree from scratch.
#[test]
fn random_batches() {
    let mut random = Random(0x9e3779b97f4a7c15);
    for _ in 0..20 {
        let mut repository = Repository::open(5000).unwrap();
        let mut plain: BTreeMap<String, Vec<u8>> = BTreeMap::new();
        let (mut number, mut commit) = (0, None);
        for batch in 0..40u64 {
            let (mut next, mut refused) = (plain.clone(), None);
            let made: Vec<(u64, String, Vec<u8>)> =
                (0..random.below(8)).map(|_| (random.below(4), key(random.below(60)), record(random.below(50)))).collect();
            for (place, (kind, key, record)) in made.iter().enumerate() {
                let there = next.contains_key(key);
                let fault = match kind {
                    1 if there => Some(BatchFault::KeyExists),
                    2 | 3 if !there => Some(BatchFault::NoSuchKey),
                    _ => None,
                };
                if let Some(fault) = fault {
                    refused = Some(BatchError { place, fault });
                    break;
                }
                if *kind == 3 {
                    next.remove(key);
                } else {
                    next.insert(key.clone(), record.clone());
                }
            }
            if made.is_empty() {
                refused = Some(BatchError { place: 0, fault: BatchFault::EmptyBatch });
            }
            let writes: Vec<Write> = made
                .iter()
                .map(|(kind, key, record)| match kind {
                    0 => Write::Put(key, record),
                    1 => Write::Create(key, record),
                    2 => Write::Update(key, record),
                    _ => Write::Delete(key),
                })
                .collect();
            let before = repository.root();
            match repository.apply(Stamp { did: DID, rev: &tid(batch + 1) }, &writes) {
                Ok(applied) => {
                    assert_eq!(refused, None);
                    plain = next;
                    number += writes.len() as u64;
                    assert_eq!((applied.previous, applied.root), (before, scratch(&plain)));
                    commit = Some(applied.commit);
                    let car = car::read(&repository.car().unwrap());
                    assert_eq!((&*car.did, car.rev, Some(car.commit), car.root), (DID, tid(batch + 1), commit, applied.root));
                    assert_eq!(car.records, plain);
                }
                Err(error) => assert_eq!(Some(error), refused),
            }
            assert_eq!((repository.root(), repository.number(), repository.commit()), (scratch(&plain), number, commit));
            let key = key(random.below(60));
            assert_eq!(repository.get(&key).unwrap().as_ref(), plain.get(&key));
            let proof = repository.prove(&key).unwrap();
            assert_eq!(proof.verify(&repository.root(), &key), Ok(plain.get(&key).map(|r| Cid::of(r))));
            let from = format!("app.bsky.feed.post/{}", random.below(10));
            let want: Vec<(Vec<u8>, Cid)> =
                plain.range(from.clone()..).take(5).map(|(k, r)| (k.clone().into_bytes(), Cid::of(r))).collect();
            assert_eq!(repository.list(&from, 5).unwrap(), want);
        }
        assert!(repository.pairs("").eq(plain.iter().map(|(k, r)| (k.clone().into_bytes(), Cid::of(r)))));
    }
}

#[test]
fn each_fault() {
    let mut repository = Repository::open(3).unwrap();
    let (k, r) = ("a.b.c/d", &b"\xa0"[..]);
    let mut fault = |rev: &str, did: &str, writes: &[Write]| repository.apply(Stamp { did, rev }, writes).unwrap_err();
    let at = |place, fault| BatchError { place, fault };
    assert_eq!(fault(&tid(1), DID, &[]), at(0, BatchFault::EmptyBatch));
    assert_eq!(fault(&tid(1), "did", &[Write::Put(k, r)]), at(0, BatchFault::BadDid));
    assert_eq!(fault("1", DID, &[Write::Put(k, r)]), at(0, BatchFault::BadRev));
    assert_eq!(fault(&tid(1), DID, &[Write::Put(k, r), Write::Put("a", r)]), at(1, BatchFault::BadKey));
    assert_eq!(fault(&tid(1), DID, &[Write::Put(k, b"\xf5")]), at(0, BatchFault::NotAMap));
    assert_eq!(fault(&tid(1), DID, &[Write::Put(k, b"\xa1")]), at(0, BatchFault::BadRecord(RecordFault::Truncated)));
    assert_eq!(fault(&tid(1), DID, &[Write::Put(k, &vec![0; 1_048_577])]), at(0, BatchFault::RecordSize));
    assert_eq!(fault(&tid(1), DID, &[Write::Update(k, r)]), at(0, BatchFault::NoSuchKey));
    assert_eq!(fault(&tid(1), DID, &[Write::Put(k, r); 4]), at(3, BatchFault::WritesFull));
    assert_eq!(
        at(1, BatchFault::BadRecord(RecordFault::KeyOrder)).to_string(),
        "write 1: the record is not DAG-CBOR: keys of a map that are out of order or stand twice"
    );
    assert_eq!(repository.number(), 0);
    repository.apply(Stamp { did: DID, rev: &tid(5) }, &[Write::Create(k, r)]).unwrap();
    let again = repository.apply(Stamp { did: DID, rev: &tid(5) }, &[Write::Put(k, r)]).unwrap_err();
    assert_eq!(again, at(0, BatchFault::RevOrder));
    assert_eq!(Repository::open(0).unwrap_err(), OpenError::Limit);
    assert_eq!(Repository::open(1_048_577).unwrap_err(), OpenError::Limit);
}

/// The file of a list of puts is that of the repository.
#[test]
fn files() {
    let records: Vec<(String, Vec<u8>)> = (0..500).map(|i| (key(i), record(i % 100))).collect();
    let writes: Vec<Write> = records.iter().map(|(k, r)| Write::Put(k, r)).collect();
    let stamp = Stamp { did: DID, rev: "3jzfcijpj2z2a" };
    let mut repository = Repository::open(1000).unwrap();
    repository.apply(stamp, &writes).unwrap();
    let file = repository.car().unwrap();
    assert_eq!(file, listing_car(stamp, &records).unwrap());
    assert_eq!(repository.car_length().unwrap(), file.len() as u64);
    let mut written = Vec::new();
    assert_eq!(repository.write_car(&mut written).unwrap(), file.len() as u64);
    assert_eq!(written, file);
    for room in [1, 100, 4096, file.len(), file.len() + 1] {
        let (mut part, mut parts) = (vec![0; room], Vec::new());
        while parts.len() < file.len().min(50 * room) {
            let count = repository.car_part(parts.len() as u64, &mut part).unwrap();
            parts.extend_from_slice(&part[..count]);
        }
        assert_eq!(parts, file[..parts.len()]);
    }
    assert_eq!(repository.car_part(file.len() as u64, &mut [0; 10]).unwrap(), 0);
    assert_eq!(repository.car_part(u64::MAX, &mut [0; 10]).unwrap(), 0);
    let read = car::read(&file);
    assert_eq!((read.rev.as_str(), read.root, read.records), (stamp.rev, repository.root(), records.iter().cloned().collect()));
    assert_eq!(listing_car(stamp, &[("bad", b"\xa0")]), Err(TreeFault::NotBuilt));
    assert_eq!(listing_car(stamp, &[] as &[(&str, &[u8])]), Err(TreeFault::NotBuilt));
    assert_eq!(listing_car(Stamp { did: "nobody", ..stamp }, &records), Err(TreeFault::NotBuilt));
    // one without a batch has no commit: its file's root is that of its tree
    let none = Repository::open(1).unwrap().car().unwrap();
    assert!(
        none.ends_with(
            &[&[36 + tree::EMPTY_NODE.len() as u8], &tree::EMPTY_ROOT.parse::<Cid>().unwrap().as_bytes()[..], tree::EMPTY_NODE]
                .concat()
        )
    );
    // a proof with a byte changed proves nothing
    let root = repository.root();
    let mut proof = repository.prove(key(7)).unwrap();
    assert!(proof.verify(&root, key(7)).unwrap().is_some());
    proof.nodes.last_mut().unwrap()[0] ^= 1;
    assert_eq!(proof.verify(&root, key(7)), Err(ProofFault::BlockMissing));
    assert_eq!(Proof::default().verify(&root, ""), Err(ProofFault::KeyLength));
}

/// The faults of nodes that are no tree's, each by its own name: in a proof of a key, in one of changes, and in an edit.
#[test]
fn no_trees() {
    let no_node = b"no node".to_vec();
    let proof = |nodes: &[Vec<u8>], key: &str| Proof { nodes: nodes.to_vec() }.verify(&Cid::of(&nodes[0]), key);
    assert_eq!(proof(std::slice::from_ref(&no_node), "a"), Err(ProofFault::BadNode));
    assert_eq!(proof(&[node_over(&Cid::of(b""))], "a"), Err(ProofFault::BlockMissing));
    let mut chain = vec![tree::EMPTY_NODE.to_vec()];
    for _ in 0..300 {
        chain.insert(0, node_over(&Cid::of(&chain[0])));
    }
    assert_eq!(proof(&chain, "a"), Err(ProofFault::TooDeep));

    // a link below layer 0, and nodes that can't meet where a key goes
    let below = [node_over(&Cid::of(tree::EMPTY_NODE)), tree::EMPTY_NODE.to_vec()];
    let (high, crossed) = nodes_of_no_tree();
    let value = Cid::of(b"");
    let cases: [(&[Vec<u8>], &str, _, _); 3] = [
        (&below, "a", ChangeFault::TooDeep, tree::EditError::TooDeep),
        (&crossed, &high, ChangeFault::NotTree, tree::EditError::NotTree),
        (
            std::slice::from_ref(&no_node),
            "a",
            ChangeFault::BadNode(Cid::of(&no_node)),
            tree::EditError::BadNode(Cid::of(&no_node)),
        ),
    ];
    for (blocks, key, fault, error) in cases {
        let (root, nodes): (Cid, Nodes) =
            (Cid::of(&blocks[0]), blocks.iter().map(|node| (Cid::of(node), node.clone())).collect());
        let had = (*key == *high).then_some(value);
        let goes = KeyChange { key: key.as_bytes(), before: had, after: None };
        assert_eq!(ChangeProof { nodes: blocks.to_vec() }.verify(&root, &root, &[goes]), Err(fault));
        let came = KeyChange { key: key.as_bytes(), before: None, after: had };
        assert_eq!(InversionProof { nodes: blocks.to_vec() }.verify(&root, &root, &[came]), Err(fault));
        assert_eq!(tree::delete(from(&nodes), &root, key), Err(error.clone()));
        assert_eq!(tree::delete(known(&nodes), &root, key), Err(error));
    }
    assert_eq!(tree::links(&no_node), Err(NodeFault::BadNode));
}

/// Down all links there are each node and each record of the tree, in the order of the keys.
#[test]
fn links() {
    let (mut root, mut nodes) = no_pairs();
    let pairs: BTreeMap<String, Cid> = (0..500).map(|i| (key(i), Cid::of(&i.to_be_bytes()))).collect();
    for (key, value) in &pairs {
        root = change(&mut nodes, |n| tree::put(from(n), &root, key, value).unwrap()).0;
    }
    let (mut left, mut seen, mut records) = (vec![tree::Link::Node(root)], 0, Vec::new());
    while let Some(link) = left.pop() {
        match link {
            tree::Link::Node(cid) => {
                seen += 1;
                left.extend(tree::links(&nodes[&cid]).unwrap().into_iter().rev());
            }
            tree::Link::Record(cid) => records.push(cid),
        }
    }
    assert_eq!((seen, records), (nodes.len(), pairs.into_values().collect()));
}

/// The parts of a file behind one another are the file, also where a block stands in it more than once.
#[test]
fn parts_of_files() {
    let mut random = Random(5);
    let mut repository = Repository::open(2000).unwrap();
    for turn in 0..20 {
        let whole = repository.car().unwrap();
        let parts: Vec<Vec<u8>> = repository.car_parts().map(Result::unwrap).collect();
        assert_eq!(parts.concat(), whole);
        // a record that reads as a node is a record, also where it has the bytes of one of the tree's nodes
        let node = repository.prove("").unwrap().nodes.pop().unwrap();
        let made: Vec<(String, Vec<u8>)> = (0..40).map(|_| (key(random.below(300)), record(random.below(20)))).collect();
        let mut writes: Vec<Write> = made.iter().map(|(k, r)| Write::Put(k, r)).collect();
        writes.push(Write::Put("a.b.c/d", &node));
        repository.apply(Stamp { did: DID, rev: &tid(turn + 1) }, &writes).unwrap();
    }
}

/// That the step between two roots is shown, and not where anything else is told, or a node is left out.
fn is_proved(proof: &ChangeProof, [old, new]: [Cid; 2], changes: &[KeyChange<'_>]) {
    let other = Cid::of(b"another");
    assert_eq!(proof.verify(&old, &new, changes), Ok(()));
    assert_eq!(proof.verify(&old, &other, changes), Err(ChangeFault::OtherRoot));
    assert_eq!(proof.verify(&other, &new, changes), Err(ChangeFault::Missing(other)));
    for place in 0..changes.len() {
        let mut told = changes.to_vec();
        told[place].before = Some(other);
        assert_eq!(proof.verify(&old, &new, &told), Err(ChangeFault::OtherValue(place)));
        let mut told = changes.to_vec();
        told[place].after = Some(other);
        assert!(proof.verify(&old, &new, &told).is_err());
    }
    for place in 0..proof.nodes.len() {
        let mut fewer = proof.clone();
        let gone = Cid::of(&fewer.nodes.remove(place));
        assert_eq!(fewer.verify(&old, &new, changes), Err(ChangeFault::Missing(gone)));
    }
    assert_eq!(proof.verify(&old, &new, &[changes[0], changes[0]]), Err(ChangeFault::BadKeys));
}

/// The same of changes that are undone.
fn is_inverted(repository: &Repository, [old, new]: [Cid; 2], changes: &[KeyChange<'_>]) {
    let (proof, other) = (repository.prove_inversion(changes).unwrap(), Cid::of(b"another"));
    assert_eq!(proof.verify(&old, &new, changes), Ok(()));
    assert_eq!(proof.verify(&other, &new, changes), Err(ChangeFault::OtherRoot));
    assert_eq!(proof.verify(&old, &other, changes), Err(ChangeFault::Missing(other)));
    for place in 0..changes.len() {
        let mut told = changes.to_vec();
        told[place].after = Some(other);
        assert_eq!(proof.verify(&old, &new, &told), Err(ChangeFault::OtherValue(place)));
        assert_eq!(repository.prove_inversion(&told), Err(ProvingFault::OtherValue(place)));
        let mut told = changes.to_vec();
        told[place].before = Some(other);
        assert!(proof.verify(&old, &new, &told).is_err());
    }
    for place in 0..proof.nodes.len() {
        let mut fewer = proof.clone();
        let gone = Cid::of(&fewer.nodes.remove(place));
        assert_eq!(fewer.verify(&old, &new, changes), Err(ChangeFault::Missing(gone)));
    }
    let twice = [changes[0], changes[0]];
    assert_eq!(proof.verify(&old, &new, &twice), Err(ChangeFault::BadKeys));
    assert_eq!(repository.prove_inversion(&twice), Err(ProvingFault::BadKeys));
}

/// Changes of random batches are proved before they are applied, and their inversions after.
#[test]
fn proofs_of_changes() {
    let mut random = Random(11);
    let mut repository = Repository::open(5000).unwrap();
    let mut plain: BTreeMap<String, Vec<u8>> = BTreeMap::new();
    for turn in 0..60 {
        let before = plain.clone();
        let made: Vec<(String, Option<Vec<u8>>)> = (0..1 + random.below(9))
            .map(|_| (key(random.below(200)), (random.below(3) > 0).then(|| record(random.below(500)))))
            .filter(|(key, record)| record.is_some() || plain.contains_key(key))
            .collect();
        let mut writes = Vec::new();
        for (key, record) in &made {
            match record {
                Some(record) => {
                    plain.insert(key.clone(), record.clone());
                    writes.push(Write::Put(key, record));
                }
                None if plain.remove(key).is_some() => writes.push(Write::Delete(key)),
                None => {}
            }
        }
        if writes.is_empty() {
            continue;
        }
        let keys: BTreeSet<&String> = made.iter().map(|(key, _)| key).collect();
        let value = |records: &BTreeMap<String, Vec<u8>>, key: &String| records.get(key).map(|record| Cid::of(record));
        let changes: Vec<KeyChange> = keys
            .into_iter()
            .map(|key| KeyChange { key: key.as_bytes(), before: value(&before, key), after: value(&plain, key) })
            .collect();
        let asked: Vec<tree::Change> = changes.iter().map(|it| tree::Change { key: it.key, value: it.after }).collect();
        let proven = repository.prove_change(&asked).unwrap();
        assert_eq!(repository.prove_change(&[asked[0], asked[0]]), Err(ProvingFault::BadKeys));
        let applied = repository.apply(Stamp { did: DID, rev: &tid(turn + 1) }, &writes).unwrap();
        assert_eq!((proven.after, &proven.changes), (applied.root, &changes));
        is_proved(&proven.proof, [applied.previous, applied.root], &changes);
        is_inverted(&repository, [applied.previous, applied.root], &changes);
    }
    let (no_node, bad) = (vec![b"x".to_vec()], Err(ChangeFault::BadNode(Cid::of(b"x"))));
    let change = [KeyChange { key: b"a", before: None, after: None }];
    assert_eq!(ChangeProof { nodes: no_node.clone() }.verify(&Cid::of(b"x"), &Cid::of(b"x"), &change), bad);
    assert_eq!(InversionProof { nodes: no_node }.verify(&Cid::of(b"x"), &Cid::of(b"x"), &change), bad);
    let (root, proven) = (repository.root(), repository.prove_change(&[]).unwrap());
    assert_eq!((proven.after, proven.proof.verify(&root, &root, &[])), (root, Ok(())));
    assert_eq!(repository.prove_inversion(&[]).unwrap().verify(&root, &root, &[]), Ok(()));
}

/// A root that no records have: undone, the change that is told leads back, though a record is lost. As a step it is refused.
#[test]
fn a_root_of_no_records() {
    let lines: Vec<&str> = include_str!("../../../examples/lost.txt").lines().collect();
    let [before, after]: [Cid; 2] = [lines[0], lines[1]].map(|text| text.parse().unwrap());
    let [_, key, "-", value] = lines[2].split(' ').collect::<Vec<_>>()[..] else { panic!("a key comes") };
    let changes = [KeyChange { key: key.as_bytes(), before: None, after: Some(value.parse().unwrap()) }];
    let nodes: Vec<Vec<u8>> = lines[3..].iter().map(|line| hex(line)).collect();
    assert_eq!(InversionProof { nodes: nodes.clone() }.verify(&before, &after, &changes), Ok(()));
    assert_eq!(ChangeProof { nodes: nodes.clone() }.verify(&before, &after, &changes), Err(ChangeFault::OtherRoot));
    let lost = Proof { nodes };
    assert!(lost.verify(&before, "posts/10").unwrap().is_some());
    assert_eq!(lost.verify(&after, "posts/10"), Ok(None));
}

/// A write's test by itself is that of a batch of it.
#[test]
fn writes() {
    let mut random = Random(13);
    let mut repository = Repository::open(5000).unwrap();
    let records = [&b"\xa0"[..], b"\xf5", b"\xa1", b"", b"\xa1\x61k\x01"];
    for turn in 0..400 {
        let key = if random.below(9) == 0 { "none".to_string() } else { key(random.below(20)) };
        let record = records[random.below(5) as usize];
        let write = match random.below(4) {
            0 => Write::Put(&key, record),
            1 => Write::Create(&key, record),
            2 => Write::Update(&key, record),
            _ => Write::Delete(&key),
        };
        let there = repository.get(&key).unwrap().is_some();
        let stamp = Stamp { did: DID, rev: &tid(turn + 1) };
        let answer = repository.apply(stamp, &[write]).map(drop).map_err(|error| error.fault);
        assert_eq!(check_write(there, write), answer);
    }
}

/// The one edit that is made of known nodes and of nodes that are hashed.
fn same(known: Result<tree::Edit, tree::EditError<()>>, hashed: Result<tree::Edit, tree::EditError<()>>) -> tree::Edit {
    assert_eq!(known, hashed);
    hashed.unwrap()
}

/// Puts and deletes over nodes that the host keeps leave exactly the nodes of the tree from scratch.
#[test]
fn edits() {
    let mut random = Random(7);
    let (mut root, mut nodes) = no_pairs();
    let mut plain: BTreeMap<String, Cid> = BTreeMap::new();
    for i in 0..3000u64 {
        let key = key(random.below(400));
        let before = plain.get(&key).copied();
        let edited = if random.below(5) < 3 {
            let value = Cid::of(&i.to_le_bytes());
            plain.insert(key.clone(), value);
            let put = tree::put(known(&nodes), &root, &key, &value);
            change(&mut nodes, |n| same(put, tree::put(from(n), &root, &key, &value)))
        } else {
            plain.remove(&key);
            let delete = tree::delete(known(&nodes), &root, &key);
            change(&mut nodes, |n| same(delete, tree::delete(from(n), &root, &key)))
        };
        assert_eq!(edited.1, [before]);
        root = edited.0;
        assert_eq!((root, nodes.len()), of_scratch(&plain));
        assert_eq!(tree::get(from(&nodes), &root, &key).unwrap(), plain.get(&key).copied());
        let (proof, value) = tree::path(from(&nodes), &root, &key).unwrap();
        assert_eq!((proof.verify(&root, &key), value), (Ok(plain.get(&key).copied()), plain.get(&key).copied()));
    }
    let none = |_: &Cid| Ok::<Option<Vec<u8>>, ()>(None);
    assert_eq!(tree::put(none, &root, "a", &root), Err(tree::EditError::Missing(root)));
    assert_eq!(tree::put(none, &root, "", &root), Err(tree::EditError::BadKeys));
    assert_eq!(tree::put(|_: &Cid| Ok::<_, ()>(Some(vec![1])), &root, "a", &root), Err(tree::EditError::BadNode(root)));
    let no_database = |_: &Cid| Err::<Option<tree::Known>, _>("no database");
    assert_eq!(tree::put(no_database, &root, "a", &root), Err(tree::EditError::Source("no database")));
}

/// Nodes are taken as a host has them, owned or lent.
#[test]
fn forms_of_nodes() {
    fn check<N: tree::Node>(node: impl Fn() -> N) {
        let edit = tree::put(|_| Ok::<_, ()>(Some(node())), &Cid::of(tree::EMPTY_NODE), "a/b", &Cid::of(b"")).unwrap();
        assert_eq!((edit.root, edit.drop), (tree_root(&[("a/b", Cid::of(b""))]).unwrap().0, vec![Cid::of(tree::EMPTY_NODE)]));
    }
    let node = tree::EMPTY_NODE.to_vec();
    let shared: std::sync::Arc<[u8]> = node.clone().into();
    check(|| node.clone());
    check(|| &node);
    check(|| &node[..]);
    check(|| shared.clone());
    check(|| std::borrow::Cow::Borrowed(&node[..]));
    // SAFETY: it is the node of its CID.
    check(|| unsafe { tree::Known::of(Cid::of(&node), &node[..]) });
    // SAFETY: as above.
    check(|| unsafe { tree::Known::of(Cid::of(&node), shared.clone()) });
}

/// Batches over nodes that the host keeps.
#[test]
fn batches_of_changes() {
    let mut random = Random(99);
    let (mut root, mut nodes) = no_pairs();
    let mut plain: BTreeMap<String, Cid> = BTreeMap::new();
    for turn in 0..200u64 {
        let drawn: BTreeMap<String, Option<Cid>> = (0..random.below(30))
            .map(|i| (key(random.below(300)), (random.below(2) == 0).then(|| Cid::of(&(turn * 100 + i).to_le_bytes()))))
            .collect();
        let changes: Vec<tree::Change> = drawn.iter().map(|(k, v)| tree::Change { key: k.as_bytes(), value: *v }).collect();
        let before: Vec<Option<Cid>> = drawn.keys().map(|k| plain.get(k).copied()).collect();
        let apply = tree::apply(known(&nodes), &root, &changes);
        let edited = change(&mut nodes, |n| same(apply, tree::apply(from(n), &root, &changes)));
        assert_eq!(edited.1, before);
        root = edited.0;
        for (key, value) in drawn {
            match value {
                Some(value) => plain.insert(key, value),
                None => plain.remove(&key),
            };
        }
        assert_eq!((root, nodes.len()), of_scratch(&plain));
    }
    let two = [tree::Change { key: b"b", value: None }, tree::Change { key: b"a", value: None }];
    assert_eq!(tree::apply(from(&nodes), &root, &two), Err(tree::EditError::BadKeys));
}

/// Each node that changes ask for missing in turn: the fault has its CID, and with it the changes go through.
#[test]
fn each_node_missing() {
    let (mut root, mut nodes) = no_pairs();
    for i in 0..200u64 {
        root = change(&mut nodes, |n| tree::put(from(n), &root, key(i), &Cid::of(b"")).unwrap()).0;
    }
    let new = Cid::of(b"new");
    for i in 0..40u64 {
        // a delete, a new value, a new key, and all of them at once with others
        let wanted: [&[(u64, Option<Cid>)]; 4] = [
            &[(i, None)],
            &[(i, Some(new))],
            &[(i + 1000, Some(new))],
            &[(i, None), (i + 50, Some(new)), (i + 100, None), (i + 1000, Some(new))],
        ];
        for wanted in wanted {
            let wanted: BTreeMap<String, Option<Cid>> = wanted.iter().map(|(i, value)| (key(*i), *value)).collect();
            let changes: Vec<tree::Change> =
                wanted.iter().map(|(key, value)| tree::Change { key: key.as_bytes(), value: *value }).collect();
            each_missing(&nodes, &root, &changes);
        }
    }
}

fn each_missing(nodes: &Nodes, root: &Cid, changes: &[tree::Change]) {
    let mut asked = Vec::new();
    let all = |cid: &Cid| {
        asked.push(*cid);
        Ok::<_, ()>(nodes.get(cid))
    };
    let edit = tree::apply(all, root, changes).unwrap();
    assert_eq!(asked.iter().collect::<BTreeSet<_>>().len(), asked.len(), "a node is asked for twice");
    for change in changes {
        let place = changes.iter().position(|other| other.key == change.key).unwrap();
        assert_eq!(edit.previous[place], tree::get(from(nodes), root, change.key).unwrap());
    }
    assert!(edit.drop.iter().all(|cid| asked.contains(cid)));
    for gone in &asked {
        let some = |cid: &Cid| Ok::<_, ()>(nodes.get(cid).filter(|_| cid != gone));
        assert_eq!(tree::apply(some, root, changes), Err(tree::EditError::Missing(*gone)));
        // SAFETY: each stands under the CID that the library told with it.
        let some = |cid: &Cid| some(cid).map(|node| node.map(|node| unsafe { tree::Known::of(*cid, node) }));
        assert_eq!(tree::apply(some, root, changes), Err(tree::EditError::Missing(*gone)));
        // One that is known to be of another CID than the one that was asked for is refused, though it isn't hashed.
        let other = |cid: &Cid| if cid == gone { Cid::of(b"") } else { *cid };
        // SAFETY: as above; the one whose CID isn't its own is never read.
        let other = |cid: &Cid| Ok::<_, ()>(nodes.get(cid).map(|node| unsafe { tree::Known::of(other(cid), node) }));
        assert_eq!(tree::apply(other, root, changes), Err(tree::EditError::BadNode(*gone)));
        let faulty = |cid: &Cid| if cid == gone { Err(*cid) } else { Ok(nodes.get(cid)) };
        assert_eq!(tree::apply(faulty, root, changes), Err(tree::EditError::Source(*gone)));
        // Another node under its CID is refused, wherever it leads.
        let empty = tree::EMPTY_NODE.to_vec();
        let wrong = |cid: &Cid| Ok::<_, ()>(if cid == gone { Some(&empty) } else { nodes.get(cid) });
        assert_eq!(tree::apply(wrong, root, changes), Err(tree::EditError::BadNode(*gone)));
    }
}

/// Stamps and commits without a repository are those of one.
#[test]
fn stamps() {
    let stamp = Stamp { did: DID, rev: "3jzfcijpj2z2a" };
    assert_eq!(check_stamp(None, stamp), Ok(()));
    assert_eq!(check_stamp(Some("3jzfcijpj2z22"), stamp), Ok(()));
    assert_eq!(check_stamp(Some(stamp.rev), stamp), Err(StampFault::RevOrder));
    assert_eq!(check_stamp(None, Stamp { did: "did:", ..stamp }), Err(StampFault::BadDid));
    assert_eq!(check_stamp(None, Stamp { rev: "1", ..stamp }), Err(StampFault::BadRev));
    let mut repository = Repository::open(10).unwrap();
    let applied = repository.apply(stamp, &[Write::Put("a.b.c/d", b"\xa0")]).unwrap();
    let commit = commit_bytes(stamp, &applied.root).unwrap();
    assert_eq!(Cid::of(&commit), applied.commit);
    assert!(check_record(&commit).is_ok() && is_did(DID) && is_tid(stamp.rev));
}

/// A repository that goes from thread to thread is the same one, and is closed by the last.
#[test]
fn passed_on() {
    let mut repository = Repository::open(100).unwrap();
    let mut plain = BTreeMap::new();
    for turn in 0..8 {
        let (key, record) = (key(turn), record(turn));
        plain.insert(key.clone(), record.clone());
        repository = std::thread::spawn(move || {
            repository.apply(Stamp { did: DID, rev: &tid(turn + 1) }, &[Write::Create(&key, &record)]).unwrap();
            repository
        })
        .join()
        .unwrap();
        assert_eq!(repository.root(), scratch(&plain));
    }
    std::thread::spawn(move || drop(repository)).join().unwrap();
}

/// One repository a thread, beside calls without state.
#[test]
fn threads() {
    std::thread::scope(|s| {
        for t in 0..8u64 {
            s.spawn(move || {
                let mut repository = Repository::open(2000).unwrap();
                let mut plain = BTreeMap::new();
                for i in 0..300 {
                    let (key, record) = (key(t * 1000 + i), record(i));
                    let applied =
                        repository.apply(Stamp { did: DID, rev: &tid(i + 1) }, &[Write::Create(&key, &record)]).unwrap();
                    plain.insert(key, record);
                    if i % 50 == 0 {
                        assert_eq!(applied.root, scratch(&plain));
                    }
                    let cid = Cid::of(&i.to_le_bytes());
                    assert_eq!(cid.to_string().parse(), Ok(cid));
                }
            });
        }
    });
}

/// A repository takes 1,048,576 writes, and not one more. It holds two gigabytes, for a minute or more:
/// cargo test --release -- --ignored
#[test]
#[ignore]
fn most_writes() {
    let mut repository = Repository::open(1_048_576).unwrap();
    let mut apply = |rev: u64, numbers: std::ops::Range<u64>| {
        let writes: Vec<(String, Vec<u8>)> = numbers.map(|i| (key(i), record(i))).collect();
        let writes: Vec<Write> = writes.iter().map(|(key, record)| Write::Put(key, record)).collect();
        repository.apply(Stamp { did: DID, rev: &tid(rev) }, &writes)
    };
    for turn in 0..104 {
        apply(turn + 1, turn * 10_000..(turn + 1) * 10_000).unwrap();
    }
    let full = |place| Err(BatchError { place, fault: BatchFault::WritesFull });
    assert_eq!(apply(105, 1_040_000..1_050_000), full(8576));
    let applied = apply(106, 1_040_000..1_048_576).unwrap();
    let pairs: BTreeMap<String, Cid> = (0..1_048_576).map(|i| (key(i), Cid::of(&record(i)))).collect();
    assert_eq!(applied.root, of_scratch(&pairs).0);
    assert_eq!(repository.apply(Stamp { did: DID, rev: &tid(107) }, &[Write::Delete(&key(0))]), full(0));
    assert_eq!((repository.number(), repository.root(), repository.get(key(0))), (1_048_576, applied.root, Ok(Some(record(0)))));
}
