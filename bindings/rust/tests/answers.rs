//! The numbers that calls answer, each call and each number once, beside the names that the header gives them; and what calls do
//! where a repository is closed or a room too small. Refused memory is tried from C (`bindings/c/refuse_memory.c`).
mod common;
#[allow(dead_code)]
#[path = "common/json.rs"]
mod json;
#[allow(dead_code)]
#[path = "../src/sys.rs"]
mod sys;

use common::{DID, Random, change, data, from, hex, key, no_pairs, node_over, nodes_of_no_tree, record, tid};
use json::Json;
use std::collections::{BTreeMap, BTreeSet};
use std::ptr::null_mut;
use sys::{Handle, Parts, Raw, Told};
use tizulgech::{Cid, RecordFault, check_record, tree};

/// What each call may answer, but for what a clash, a full store or refused memory alone bring.
const ANSWERS: &[(&str, &str)] = &[
    (
        "record_fault",
        "DONE TRUNCATED LONG_HEAD INDEFINITE BAD_TAG BAD_LINK KEY_NOT_TEXT KEY_ORDER BAD_UTF8 FLOAT SIMPLE INTEGER_RANGE TOO_DEEP TRAILING",
    ),
    (
        "write_fault",
        "DONE TRUNCATED LONG_HEAD INDEFINITE BAD_TAG BAD_LINK KEY_NOT_TEXT KEY_ORDER BAD_UTF8 FLOAT SIMPLE INTEGER_RANGE TOO_DEEP TRAILING \
         BAD_KEY NOT_A_MAP RECORD_SIZE KEY_EXISTS NONE BAD",
    ),
    ("below", "DONE SMALL BAD_NODE BAD"),
    ("links", "DONE SMALL BAD_NODE"),
    ("cids", "DONE SMALL BAD"),
    ("cid_from_text", "DONE CID_LENGTH CID_PREFIX CID_LETTER CID_BITS CID_PROFILE"),
    ("step", "DONE BELOW NONE BAD_NODE"),
    ("stamp_fault", "DONE BAD_DID BAD_REV REV_ORDER"),
    ("commit_bytes", "DONE SMALL BAD"),
    ("tree_apply", "DONE MISSING BAD_NODE TOO_MANY_NODES NOT_TREE SMALL BAD"),
    ("verify", "DONE MISSING BAD_KEY NONE BAD_NODE TOO_MANY_NODES BAD"),
    ("verify_change", "DONE MISSING BAD_NODE TOO_MANY_NODES NOT_TREE OTHER_VALUE OTHER_ROOT BAD"),
    ("verify_inversion", "DONE MISSING BAD_NODE TOO_MANY_NODES NOT_TREE OTHER_VALUE OTHER_ROOT BAD"),
    ("tree_root", "DONE NOT_ASCENDING BAD"),
    ("listing_car", "DONE NOT_BUILT SMALL BAD"),
    ("signed_commit", "DONE SMALL BAD"),
    ("next_tid", "DONE SMALL BAD BAD_REV REV_ORDER"),
    ("read_commit", "DONE SMALL NOT_A_COMMIT COMMIT_DID COMMIT_REV"),
    ("file_head", "DONE SMALL BAD"),
    ("file_section", "DONE SMALL BAD"),
    (
        "check_commit",
        "DONE SMALL BAD MESSAGE_SIZE NOT_A_MESSAGE MESSAGE_CBOR MESSAGE_NOT_A_MAP BAD_FIELD REBASE TOO_BIG TOO_MANY_OPS BLOCKS_SIZE \
         BAD_DID BAD_REV BAD_SINCE SINCE_ORDER BAD_TIME BAD_OP DOUBLED_PATH OTHER_PREVIOUS CAR_HEADER CAR_LENGTH CAR_TRUNCATED CAR_CID \
         NOT_THE_ROOT MISNAMED COMMIT_MISSING NOT_A_COMMIT COMMIT_DID COMMIT_REV OTHER_DID OTHER_REV RECORD_MISSING MESSAGE_RECORD_SIZE \
         TRUNCATED LONG_HEAD INDEFINITE BAD_TAG BAD_LINK KEY_NOT_TEXT KEY_ORDER BAD_UTF8 FLOAT SIMPLE INTEGER_RANGE TOO_DEEP TRAILING \
         NOT_A_MAP NODE_MISSING BAD_NODE TOO_MANY_NODES NOT_TREE OTHER_VALUE OTHER_ROOT",
    ),
    ("open", "DONE OPEN BAD"),
    ("stage", "DONE CLOSED BAD"),
    ("clear", "DONE CLOSED"),
    (
        "apply",
        "DONE TRUNCATED LONG_HEAD INDEFINITE BAD_TAG BAD_LINK KEY_NOT_TEXT KEY_ORDER BAD_UTF8 FLOAT SIMPLE INTEGER_RANGE TOO_DEEP TRAILING \
         BAD_KEY NOT_A_MAP RECORD_SIZE KEY_EXISTS NONE WRITES_FULL EMPTY_BATCH BAD_DID BAD_REV REV_ORDER CLOSED",
    ),
    ("get", "DONE NONE SMALL CLOSED"),
    ("list", "DONE SMALL CLOSED"),
    ("entries", "DONE SMALL CLOSED"),
    ("root", "DONE CLOSED"),
    ("commit", "DONE NONE CLOSED"),
    ("number", "DONE CLOSED"),
    ("car", "DONE SMALL CLOSED"),
    ("car_length", "DONE CLOSED"),
    ("car_part", "DONE CLOSED"),
    ("car_head", "DONE SMALL CLOSED"),
    ("car_section", "DONE NONE SMALL CLOSED BAD"),
    ("prove", "DONE SMALL CLOSED"),
    ("prove_change", "DONE SMALL CLOSED BAD"),
    ("prove_inversion", "DONE OTHER_VALUE SMALL CLOSED BAD"),
    ("rev", "DONE NONE SMALL CLOSED"),
    (
        "preview",
        "DONE TRUNCATED LONG_HEAD INDEFINITE BAD_TAG BAD_LINK KEY_NOT_TEXT KEY_ORDER BAD_UTF8 FLOAT SIMPLE INTEGER_RANGE TOO_DEEP TRAILING \
         BAD_KEY NOT_A_MAP RECORD_SIZE KEY_EXISTS NONE WRITES_FULL EMPTY_BATCH BAD_DID BAD_REV REV_ORDER SMALL CLOSED",
    ),
    (
        "apply_signed",
        "DONE TRUNCATED LONG_HEAD INDEFINITE BAD_TAG BAD_LINK KEY_NOT_TEXT KEY_ORDER BAD_UTF8 FLOAT SIMPLE INTEGER_RANGE TOO_DEEP TRAILING \
         BAD_KEY NOT_A_MAP RECORD_SIZE KEY_EXISTS NONE WRITES_FULL EMPTY_BATCH BAD_DID BAD_REV REV_ORDER SMALL CLOSED BAD ROOT_MOVED \
         BAD_SEQ BAD_SINCE SINCE_ORDER BAD_TIME TOO_MANY_OPS MESSAGE_RECORD_SIZE BLOCKS_SIZE",
    ),
];

/// Bytes that are no record, in the order of the numbers.
fn no_records() -> [Vec<u8>; 13] {
    let deep = vec![0x81; 1000];
    [
        "a1",
        "a1616b1801",
        "9fff",
        "c100",
        "d82a4100",
        "a10000",
        "a26162f66161f6",
        "61ff",
        "fb3ff0000000000000",
        "f7",
        "1bffffffffffffffff",
        "",
        "a0a0",
    ]
    .map(|text| if text.is_empty() { deep.clone() } else { hex(text) })
}

const KEY: &[u8] = b"a.b.c/d";

/// The numbers of the header.
fn numbers() -> BTreeMap<&'static str, u8> {
    let header = include_str!("../../c/tizulgech.h");
    let table = &header[header.find("enum {").unwrap()..header.find("};").unwrap()];
    let named = table.split([',', '\n']).filter_map(|line| line.trim().trim_start_matches("enum {").strip_prefix("TIZULGECH_"));
    named.map(|line| line.split_once(" = ").unwrap()).map(|(name, number)| (name, number.trim().parse().unwrap())).collect()
}

/// What calls have answered.
#[derive(Default)]
struct Seen(BTreeMap<&'static str, BTreeSet<u8>>);

impl Seen {
    fn see(&mut self, call: &'static str, number: u8) -> u8 {
        self.0.entry(call).or_default().insert(number);
        number
    }
}

fn opened() -> Handle {
    let mut handle = Handle::open(3).unwrap();
    assert_eq!((handle.stage(0, KEY, b"\xa0"), apply(&mut handle, DID, 1)), (0, 0));
    handle
}

fn apply(handle: &mut Handle, did: &str, rev: u64) -> u8 {
    apply_under(handle, did, &tid(rev))
}

fn apply_under(handle: &mut Handle, did: &str, rev: &str) -> u8 {
    handle.apply(did.as_bytes(), rev.as_bytes(), &mut 9, &mut [0; 36], &mut [0; 36], &mut [0; 36])
}

#[test]
fn each_answer_of_each_call() {
    let (seen, numbers) = (&mut Seen::default(), numbers());
    values(seen);
    trees(seen);
    repositories(seen);
    commits(seen);
    messages(seen);
    signed(seen);
    closed(seen);
    for (call, names) in ANSWERS {
        let wanted: BTreeSet<u8> = names.split_whitespace().map(|name| numbers[name]).collect();
        assert_eq!(seen.0.get(call), Some(&wanted), "{call}");
    }
    assert_eq!(seen.0.len(), ANSWERS.len());
}

fn values(seen: &mut Seen) {
    seen.see("record_fault", sys::record_fault(b"\xa0"));
    for (at, bytes) in no_records().iter().enumerate() {
        let number = sys::record_fault(bytes);
        assert_eq!(number as usize, at + 1);
        seen.see("record_fault", number);
        seen.see("write_fault", sys::write_fault(0, false, KEY, bytes));
    }
    let long = vec![0; 1_048_577];
    for (kind, there, key, bytes) in [
        (0, true, KEY, &b"\xa0"[..]),
        (0, true, b"a", b"\xa0"),
        (0, true, KEY, b"\xf5"),
        (0, true, KEY, &long),
        (1, true, KEY, b"\xa0"),
        (2, false, KEY, b"\xa0"),
        (3, false, KEY, b""),
        (4, true, KEY, b"\xa0"),
    ] {
        seen.see("write_fault", sys::write_fault(kind, there, key, bytes));
    }
    assert_eq!((sys::write_fault(2, true, KEY, b"\xa0"), sys::write_fault(3, true, KEY, b"\xf5")), (0, 0));
    let text = tree::EMPTY_ROOT;
    for text in [
        text.into(),
        text[1..].into(),
        text.replacen('b', "z", 1),
        text.replacen('a', "1", 1),
        format!("{}n", &text[..58]),
        text.replacen("bafyrei", "bafkrei", 1),
    ] {
        seen.see("cid_from_text", sys::cid_from_text(text.as_bytes(), &mut [0; 36]));
    }
    for (before, did, rev) in [("", DID, tid(1)), ("", "did:", tid(1)), ("", DID, "1".into()), (&*tid(1), DID, tid(1))] {
        seen.see("stamp_fault", sys::stamp_fault(before.as_bytes(), did.as_bytes(), rev.as_bytes()));
    }
    for (root, room) in [(*no_pairs().0.as_bytes(), 200), (*no_pairs().0.as_bytes(), 1), ([0; 36], 200)] {
        seen.see("commit_bytes", sys::commit_bytes(DID.as_bytes(), tid(1).as_bytes(), &root, &mut vec![0; room], &mut 0));
    }
}

/// Parts of which there is one.
fn one<'a>(bytes: &'a [u8], ends: &'a [usize]) -> Parts<'a> {
    Parts { bytes, ends }
}

fn trees(seen: &mut Seen) {
    let value = *Cid::of(b"").as_bytes();
    let (empty, empty_root) = (tree::EMPTY_NODE, Cid::of(tree::EMPTY_NODE));
    let node = tree::put(|_: &Cid| Ok::<_, ()>(Some(empty.to_vec())), &empty_root, KEY, &Cid::of(b"")).unwrap().add[0].1.clone();
    let (root, over) = (Cid::of(&node), node_over(&empty_root));
    for (node, key) in [(&node[..], KEY), (&over, KEY), (&node, b"a"), (b"", KEY)] {
        seen.see("step", sys::step(node, key, &mut [0; 36]));
    }
    for (node, room) in [(&node[..], 37), (&node, 36), (b"", 0)] {
        seen.see("links", sys::links(node, &mut vec![0; room], &mut 0));
    }

    for (node, keys, room) in [(&over[..], &[1, 2][..], 52), (&over, &[1, 2], 51), (b"", &[1, 2], 52), (&over, &[2, 1], 52)] {
        let number = sys::below(node, one(b"ab", keys), &[value; 2].concat(), &mut vec![0; room], &mut 0);
        seen.see("below", number);
    }

    // the one key came with the one node, and a step takes it away again
    let mut verify = |nodes: &[u8], ends: &[usize], [bare, full]: [&Cid; 2], keys: &[usize], value: &Cid| {
        let (nodes, keys, zeros, value) = (one(nodes, ends), one(KEY, keys), &[0; 36], value.as_bytes());
        let [bare, full] = [bare, full].map(Cid::as_bytes);
        let came = Told { keys, befores: zeros, afters: value };
        seen.see("verify_inversion", sys::verify_inversion(nodes, bare, full, came, &mut [0; 36], &mut 0));
        let goes = Told { keys, befores: value, afters: zeros };
        seen.see("verify_change", sys::verify_change(nodes, full, bare, goes, &mut [0; 36], &mut 0));
    };
    let (own, other) = (Cid::of(b""), Cid::of(b"other"));
    verify(&node, &[node.len()], [&empty_root, &root], &[KEY.len()], &own);
    verify(&node, &[node.len()], [&root, &root], &[KEY.len()], &own);
    verify(&node, &[node.len()], [&empty_root, &root], &[KEY.len()], &other);
    verify(&node, &[node.len()], [&empty_root, &other], &[KEY.len()], &own);
    verify(b"x", &[1], [&empty_root, &Cid::of(b"x")], &[KEY.len()], &own);
    verify(&over, &[over.len()], [&empty_root, &Cid::of(&over)], &[KEY.len()], &own);
    verify(&node, &[node.len()], [&empty_root, &root], &[0], &own);
    verify(&node, &[node.len() + 1], [&empty_root, &root], &[KEY.len()], &own);

    for (blocks, end, room) in [(&node[..], node.len(), 36), (&node, node.len(), 35), (&node, node.len() + 1, 36)] {
        seen.see("cids", sys::cids(one(blocks, &[end]), &mut vec![0; room], &mut 0));
    }

    let mut apply_known = |node: &[u8], ends: &[usize], cids: &[u8], root: Cid, keys: &[usize], room: usize| {
        seen.see(
            "tree_apply",
            sys::tree_apply(
                one(node, ends),
                cids,
                root.as_bytes(),
                one(b"ab", keys),
                &[value; 2].concat(),
                &mut [0; 36],
                &mut vec![0; room],
                &mut 0,
            ),
        )
    };
    // what is no CID, more of them than nodes, a part of one
    for (cids, number) in
        [(root.as_bytes().to_vec(), 0), (vec![0; 36], 252), (root.as_bytes().repeat(2), 252), (vec![1; 35], 252)]
    {
        assert_eq!(apply_known(&node, &[node.len()], &cids, root, &[1, 2], 1000), number);
    }
    let mut tree_apply = |node: &[u8], ends: &[usize], root: Cid, keys: &[usize], room: usize| {
        apply_known(node, ends, &[], root, keys, room);
    };
    tree_apply(&node, &[node.len()], root, &[1, 2], 1000);
    tree_apply(&node, &[node.len()], root, &[1, 2], 10);
    tree_apply(&node, &[node.len()], empty_root, &[1, 2], 1000);
    tree_apply(b"x", &[1], Cid::of(b"x"), &[1, 2], 1000);
    tree_apply(&over, &[over.len()], Cid::of(&over), &[1, 2], 1000);
    // ends out of their bytes, keys that don't ascend or have no bytes, one value too many, a root that is none
    tree_apply(&node, &[node.len() + 1], root, &[1, 2], 1000);
    tree_apply(&node, &[node.len()], root, &[0, 1], 1000);
    tree_apply(&node, &[node.len()], root, &[2], 1000);

    let (high, nodes) = nodes_of_no_tree();
    let [top, before, behind] = &nodes;
    let ends = [top.len(), top.len() + before.len(), top.len() + before.len() + behind.len()];
    let (nodes, top) = (nodes.concat(), Cid::of(top));
    let (keys, zeros) = (&[high.len()], &[0; 36]);
    let came = Told { keys: one(high.as_bytes(), keys), befores: zeros, afters: own.as_bytes() };
    let [old, new] = [&empty_root, &top].map(Cid::as_bytes);
    seen.see("verify_inversion", sys::verify_inversion(one(&nodes, &ends), old, new, came, &mut [0; 36], &mut 0));
    let goes = Told { keys: one(high.as_bytes(), keys), befores: own.as_bytes(), afters: zeros };
    seen.see("verify_change", sys::verify_change(one(&nodes, &ends), new, old, goes, &mut [0; 36], &mut 0));
    let delete = one(high.as_bytes(), keys);
    seen.see("tree_apply", sys::tree_apply(one(&nodes, &ends), &[], new, delete, zeros, &mut [0; 36], &mut [0; 1000], &mut 0));

    // a chain of nodes that is longer than any tree is deep
    let (mut chain, mut ends, mut top) = (empty.to_vec(), vec![empty.len()], empty_root);
    for _ in 0..300 {
        let node = node_over(&top);
        top = Cid::of(&node);
        chain.extend(&node);
        ends.push(chain.len());
    }
    let mut verify =
        |blocks: Parts, root: &Cid, key: &[u8]| seen.see("verify", sys::verify(blocks, root.as_bytes(), key, &mut [0; 36]));
    verify(one(&node, &[node.len()]), &root, KEY);
    verify(one(&node, &[node.len()]), &root, b"a");
    verify(one(&node, &[node.len()]), &root, b"");
    verify(one(&node, &[node.len()]), &empty_root, KEY);
    verify(one(b"x", &[1]), &Cid::of(b"x"), KEY);
    verify(one(&chain, &ends), &top, KEY);
    verify(one(&node, &[node.len() + 1]), &root, KEY);

    for (keys, ends, cids) in [(&b"ab"[..], &[1, 2][..], 72), (b"ba", &[1, 2], 72), (b"ab", &[1, 2], 71), (b"ab", &[2, 1], 72)] {
        let cids = &[value; 2].concat()[..cids];
        seen.see("tree_root", sys::tree_root(one(keys, ends), cids, &mut [0; 36], &mut 0));
    }
    for (key, records, room) in [(KEY, &[1][..], 1000), (KEY, &[1], 9), (b"a", &[1], 1000), (KEY, &[0, 1], 1000)] {
        let number = sys::listing_car(
            DID.as_bytes(),
            tid(1).as_bytes(),
            one(key, &[key.len()]),
            one(b"\xa0", records),
            &mut vec![0; room],
            &mut 0,
        );
        seen.see("listing_car", number);
    }
}

fn repositories(seen: &mut Seen) {
    for limit in [0, 1_048_577] {
        seen.see("open", Handle::open(limit).err().unwrap());
    }
    let mut raw = Raw { is_open: false, at: null_mut() };
    for _ in 0..2 {
        // SAFETY: a repository that is closed, and then one that is open.
        seen.see("open", unsafe { sys::tizulgech_open(1, &mut raw) });
    }
    // SAFETY: one that is open.
    unsafe { sys::tizulgech_close(&mut raw) }

    let (out, size, cid) = (&mut [0; 1000][..], &mut 0, &mut [0; 36]);
    let mut fresh = Handle::open(1).unwrap();
    seen.see("commit", fresh.commit(cid));
    seen.see("stage", fresh.stage(4, KEY, b"\xa0"));
    seen.see("apply", apply(&mut fresh, DID, 1));
    for bytes in no_records() {
        seen.see("stage", fresh.stage(0, KEY, &bytes));
        seen.see("apply", apply(&mut fresh, DID, 1));
    }
    let long = vec![0; 1_048_577];
    for (kind, key, bytes) in [(0, &b"a"[..], &b"\xa0"[..]), (0, KEY, b"\xf5"), (0, KEY, &long), (3, KEY, b"")] {
        assert_eq!(fresh.stage(kind, key, bytes), 0);
        seen.see("apply", apply(&mut fresh, DID, 1));
    }
    for (did, rev) in [("did:", tid(1)), (DID, "1".into())] {
        assert_eq!(fresh.stage(0, KEY, b"\xa0"), 0);
        seen.see("apply", apply_under(&mut fresh, did, &rev));
    }
    assert_eq!((fresh.stage(0, KEY, b"\xa0"), fresh.stage(0, KEY, b"\xa0")), (0, 0));
    seen.see("apply", apply(&mut fresh, DID, 1));

    let mut handle = opened();
    for (rev, kind) in [(2, 1), (1, 0), (2, 0)] {
        assert_eq!(handle.stage(kind, KEY, b"\xa0"), 0);
        seen.see("apply", apply(&mut handle, DID, rev));
    }
    seen.see("clear", handle.clear());
    seen.see("get", handle.get(KEY, out, size));
    seen.see("get", handle.get(KEY, &mut [], size));
    seen.see("get", handle.get(b"a", out, size));
    let record = *Cid::of(b"\xa0").as_bytes();
    fn told<'a>(key: &'a [u8], befores: &'a [u8], afters: &'a [u8]) -> Told<'a> {
        Told { keys: one(key, &[7]), befores, afters }
    }
    for (cid, number) in [(*Cid::of(b"").as_bytes(), 24), ([0; 36], 252)] {
        assert_eq!(handle.car_section(&cid, out, size), number);
        seen.see("car_section", number);
    }
    let mut place = 9;
    seen.see("prove_inversion", handle.prove_inversion(told(KEY, &record, &[0; 36]), &mut place, out, size));
    assert_eq!(place, 0);
    for (key, values) in [(&b""[..], &[0; 36][..]), (KEY, &[0; 35]), (KEY, &[1; 36])] {
        seen.see("prove_inversion", handle.prove_inversion(told(key, values, &record), &mut 0, out, size));
        seen.see("prove_change", handle.prove_change(one(key, &[7]), values, out, size));
    }
    for room in [1000, 0] {
        let out = &mut out[..room];
        seen.see("list", handle.list(b"", 9, out, size));
        seen.see("entries", handle.entries(b"", 9, out, size));
        seen.see("car_head", handle.car_head(out, size));
        seen.see("car_section", handle.car_section(&record, out, size));
        seen.see("prove_change", handle.prove_change(one(KEY, &[7]), &[0; 36], out, size));
        seen.see("prove_inversion", handle.prove_inversion(told(KEY, &[0; 36], &record), &mut 0, out, size));
        seen.see("car", handle.car(out, size));
        seen.see("car_part", handle.car_part(0, out, size));
        seen.see("prove", handle.prove(KEY, out, size));
    }
    seen.see("root", handle.root(cid));
    seen.see("commit", handle.commit(cid));
    seen.see("number", handle.number(&mut 0));
    seen.see("car_length", handle.car_length(&mut 0));
}

fn commits(seen: &mut Seen) {
    let (root, rev, size) = (*no_pairs().0.as_bytes(), tid(1), &mut 0);
    let own = |did: &str, rev: &str| {
        let (mut out, mut size) = ([0; 400], 0);
        assert_eq!(sys::signed_commit(did.as_bytes(), rev.as_bytes(), &root, &[7; 64], &mut out, &mut size), 0);
        out[..size].to_vec()
    };
    for (root, room) in [(root, 400), (root, 1), ([0; 36], 400)] {
        let out = &mut vec![0; room][..];
        seen.see("signed_commit", sys::signed_commit(DID.as_bytes(), rev.as_bytes(), &root, &[7; 64], out, size));
        seen.see("file_head", sys::file_head(&root, out, size));
        seen.see("file_section", sys::file_section(&root, tree::EMPTY_NODE, out, size));
    }
    for (last, clock, room) in [("", 7, 13), ("", 7, 12), ("", 1024, 13), ("1", 7, 13), ("bzzzzzzzzzzzz", 7, 13)] {
        seen.see("next_tid", sys::next_tid(last.as_bytes(), 1, clock, &mut vec![0; room], size));
    }
    for (bytes, room) in
        [(own(DID, &rev), 900), (own(DID, &rev), 1), (vec![], 900), (own("did:", &rev), 900), (own(DID, "1"), 900)]
    {
        seen.see("read_commit", sys::read_commit(&bytes, &mut vec![0; room], size));
    }
}

/// The messages of the table of cases, of which each fault has one, and two faults that it leaves out.
fn messages(seen: &mut Seen) {
    let table = Json::read(include_str!("../../cases.json"));
    let mut check = |previous: &sys::Cid, message: &[u8], room: usize| {
        seen.see("check_commit", sys::check_commit(previous, message, &mut 0, &mut [0; 36], &mut vec![0; room], &mut 0))
    };
    for it in table["calls"].list().iter().filter(|it| it["call"].text() == "check_commit") {
        let previous: Cid = it["previous"].text().parse().unwrap();
        let number = check(previous.as_bytes(), &data(it["message"].text()), 1 << 22);
        assert_eq!(Some(number), it.get("fault").map_or(Some(0), |fault| numbers().get(fault.text()).copied()), "{it:?}");
        check(previous.as_bytes(), &data(it["message"].text()), 1);
        check(&[0; 36], b"", 1);
    }
}

fn signed(seen: &mut Seen) {
    let (out, size, place) = (&mut vec![0; 4096][..], &mut 0, &mut 0);
    let time = b"2026-11-30T12:00:00Z".as_slice();
    let mut handle = Handle::open(300).unwrap();
    let mut root = [0; 36];
    assert_eq!(handle.root(&mut root), 0);
    seen.see("rev", handle.rev(out, size));
    let mut both = |handle: &mut Handle, did: &str, rev: &str| {
        seen.see("preview", handle.preview(did.as_bytes(), rev.as_bytes(), &mut 0, &mut [0; 4096], &mut 0));
        let number =
            handle.apply_signed(&root, did.as_bytes(), rev.as_bytes(), &[7; 64], 1, time, b"", &mut 0, &mut [0; 4096], &mut 0);
        handle.clear();
        seen.see("apply_signed", number)
    };
    both(&mut handle, DID, &tid(2));
    for bytes in no_records() {
        handle.stage(0, KEY, &bytes);
        both(&mut handle, DID, &tid(2));
    }
    let long = vec![0; 1_048_577];
    for (kind, key, bytes) in [(0, &b"a"[..], &b"\xa0"[..]), (0, KEY, b"\xf5"), (0, KEY, &long), (3, KEY, b"")] {
        assert_eq!(handle.stage(kind, key, bytes), 0);
        both(&mut handle, DID, &tid(2));
    }
    for (did, rev) in [("did:", tid(2)), (DID, "1".into())] {
        assert_eq!(handle.stage(0, KEY, b"\xa0"), 0);
        both(&mut handle, did, &rev);
    }
    assert_eq!((handle.stage(1, KEY, b"\xa0"), handle.stage(1, KEY, b"\xa0")), (0, 0));
    both(&mut handle, DID, &tid(2));
    for _ in 0..301 {
        assert_eq!(handle.stage(0, KEY, b"\xa0"), 0);
    }
    both(&mut handle, DID, &tid(2));
    // what no message tells
    let (did, rev) = (DID.as_bytes(), tid(2));
    let mut apply = |handle: &mut Handle, previous: &sys::Cid, seq: u64, time: &[u8], since: &[u8], room: usize| {
        let number =
            handle.apply_signed(previous, did, rev.as_bytes(), &[7; 64], seq, time, since, &mut 0, &mut vec![0; room], &mut 0);
        seen.see("apply_signed", number)
    };
    for at in 0..201 {
        assert_eq!(handle.stage(0, key(at).as_bytes(), b"\xa0"), 0);
    }
    apply(&mut handle, &root, 1, time, b"", 4096);
    handle.clear();
    let head = |size: usize| [&b"\xa1\x61k\x5a"[..], &(size as u32).to_be_bytes(), &vec![0; size]].concat();
    for sizes in [&[1_000_000][..], &[700_000, 700_001, 700_002]] {
        for (at, size) in sizes.iter().enumerate() {
            assert_eq!(handle.stage(0, key(at as u64).as_bytes(), &head(*size)), 0);
        }
        apply(&mut handle, &root, 1, time, b"", 4096);
        handle.clear();
    }
    assert_eq!(handle.stage(1, KEY, b"\xa0"), 0);
    apply(&mut handle, &[0; 36], 1, time, b"", 4096);
    apply(&mut handle, Cid::of(b"").as_bytes(), 1, time, b"", 4096);
    apply(&mut handle, &root, 1 << 63, time, b"", 4096);
    apply(&mut handle, &root, 1, b"now", b"", 4096);
    apply(&mut handle, &root, 1, time, b"1", 4096);
    apply(&mut handle, &root, 1, time, tid(2).as_bytes(), 4096);
    apply(&mut handle, &root, 1, time, b"", 9);
    // the write still waits
    assert_eq!(apply(&mut handle, &root, 1, time, tid(1).as_bytes(), 4096), 0);
    seen.see("preview", handle.preview(did, tid(3).as_bytes(), place, out, size));
    assert_eq!(handle.stage(1, KEY, b"\xa0"), 0);
    assert_eq!(handle.root(&mut root), 0);
    for rev in [2, 3] {
        seen.see("preview", handle.preview(did, tid(rev).as_bytes(), place, out, size));
        let number = handle.apply_signed(&root, did, tid(rev).as_bytes(), &[7; 64], 1, time, b"", place, out, size);
        seen.see("apply_signed", number);
    }
    handle.clear();
    assert_eq!(handle.stage(2, KEY, b"\xa1\x61k\x01"), 0);
    for room in [4096, 9] {
        seen.see("rev", handle.rev(&mut out[..room], size));
        seen.see("preview", handle.preview(did, tid(3).as_bytes(), place, &mut out[..room], size));
    }
}

type OfRepository = (&'static str, fn(*mut Raw) -> u8);

/// Each call that takes a repository and answers a number, but `open`.
// SAFETY: each is given a repository, slices, and room for CIDs.
const OF_REPOSITORIES: [OfRepository; 20] = [
    ("stage", |it| unsafe { sys::tizulgech_stage(it, 0, KEY.as_ptr(), KEY.len(), b"\xa0".as_ptr(), 1) }),
    ("clear", |it| unsafe { sys::tizulgech_clear(it) }),
    ("apply", |it| unsafe {
        let (mut place, mut cids) = (0, [[0; 36]; 3]);
        let [root, previous, commit] = cids.each_mut().map(|cid| cid.as_mut_ptr());
        sys::tizulgech_apply(it, KEY.as_ptr(), 1, KEY.as_ptr(), 1, &mut place, root, 36, previous, 36, commit, 36)
    }),
    ("get", |it| unsafe { sys::tizulgech_get(it, KEY.as_ptr(), KEY.len(), [0; 99].as_mut_ptr(), 99, &mut 0) }),
    ("list", |it| unsafe { sys::tizulgech_list(it, KEY.as_ptr(), 0, 9, [0; 99].as_mut_ptr(), 99, &mut 0) }),
    ("entries", |it| unsafe { sys::tizulgech_entries(it, KEY.as_ptr(), 0, 9, [0; 99].as_mut_ptr(), 99, &mut 0) }),
    ("root", |it| unsafe { sys::tizulgech_root(it, [0; 36].as_mut_ptr(), 36) }),
    ("commit", |it| unsafe { sys::tizulgech_commit(it, [0; 36].as_mut_ptr(), 36) }),
    ("number", |it| unsafe { sys::tizulgech_number(it, &mut 0) }),
    ("car", |it| unsafe { sys::tizulgech_car(it, [0; 999].as_mut_ptr(), 999, &mut 0) }),
    ("car_length", |it| unsafe { sys::tizulgech_car_length(it, &mut 0) }),
    ("car_part", |it| unsafe { sys::tizulgech_car_part(it, 0, [0; 99].as_mut_ptr(), 99, &mut 0) }),
    ("car_head", |it| unsafe { sys::tizulgech_car_head(it, [0; 99].as_mut_ptr(), 99, &mut 0) }),
    ("car_section", |it| unsafe { sys::tizulgech_car_section(it, KEY.as_ptr(), KEY.len(), [0; 99].as_mut_ptr(), 99, &mut 0) }),
    ("prove", |it| unsafe { sys::tizulgech_prove(it, KEY.as_ptr(), KEY.len(), [0; 999].as_mut_ptr(), 999, &mut 0) }),
    ("prove_change", |it| unsafe {
        let (no, out, none) = (KEY.as_ptr(), [0; 99].as_mut_ptr(), [0; 1].as_ptr());
        sys::tizulgech_prove_change(it, no, 0, none, 0, no, 0, out, 99, &mut 0)
    }),
    ("rev", |it| unsafe { sys::tizulgech_rev(it, [0; 99].as_mut_ptr(), 99, &mut 0) }),
    ("preview", |it| unsafe {
        sys::tizulgech_preview(it, KEY.as_ptr(), 1, KEY.as_ptr(), 1, &mut 0, [0; 99].as_mut_ptr(), 99, &mut 0)
    }),
    ("apply_signed", |it| unsafe {
        let (no, out) = (KEY.as_ptr(), [0; 99].as_mut_ptr());
        sys::tizulgech_apply_signed(it, no, 0, no, 0, no, 0, no, 0, 0, no, 0, no, 0, &mut 0, out, 99, &mut 0)
    }),
    ("prove_inversion", |it| unsafe {
        let (no, out, none) = (KEY.as_ptr(), [0; 99].as_mut_ptr(), [0; 1].as_ptr());
        sys::tizulgech_prove_inversion(it, no, 0, none, 0, no, 0, no, 0, &mut 0, out, 99, &mut 0)
    }),
];

/// One that was never opened, and one that was closed: each call says so, and leaves it closed.
fn closed(seen: &mut Seen) {
    let mut never = Raw { is_open: false, at: null_mut() };
    let mut closed = Raw { is_open: false, at: null_mut() };
    // SAFETY: a repository that isn't open, and then one that is.
    unsafe {
        assert_eq!(sys::tizulgech_open(9, &mut closed), 0);
        sys::tizulgech_close(&mut closed);
        sys::tizulgech_close(&mut closed);
    }
    for it in [&mut never, &mut closed] {
        for (call, of) in OF_REPOSITORIES {
            let number = of(it);
            assert_eq!(number, 250, "{call}");
            seen.see(call, number);
            assert!(!it.is_open);
        }
    }
    // SAFETY: one that is closed may be opened again.
    unsafe {
        assert_eq!(sys::tizulgech_open(9, &mut closed), 0);
        sys::tizulgech_close(&mut closed);
    }
}

/// Each room that is too small: the size that is wanted is told, nothing is written, and the call can be made again.
fn each_room(mut call: impl FnMut(&mut [u8], &mut usize) -> u8) {
    let (mut out, mut size) = (vec![0; 4096], 0);
    assert_eq!(call(&mut out, &mut size), 0);
    let (whole, wanted) = (out[..size].to_vec(), size);
    assert!(wanted > 0);
    for room in 0..wanted {
        let mut out = vec![0xaa; room];
        assert_eq!((call(&mut out, &mut size), size), (251, wanted));
        assert!(out.iter().all(|byte| *byte == 0xaa));
    }
    for room in [wanted, wanted + 9] {
        let mut out = vec![0xaa; room];
        assert_eq!((call(&mut out, &mut size), size), (0, wanted));
        assert!(out[..wanted] == whole && out[wanted..].iter().all(|byte| *byte == 0xaa));
    }
}

#[test]
fn small_rooms() {
    let (root, nodes) = no_pairs();
    let (node, rev, value) = (&nodes[&root], tid(1), *Cid::of(b"").as_bytes());
    each_room(|out, size| sys::commit_bytes(DID.as_bytes(), rev.as_bytes(), root.as_bytes(), out, size));
    each_room(|out, size| {
        sys::tree_apply(one(node, &[node.len()]), &[], root.as_bytes(), one(KEY, &[KEY.len()]), &value, &mut [0; 36], out, size)
    });
    each_room(|out, size| sys::cids(one(b"abc", &[1, 2, 3]), out, size));
    each_room(|out, size| sys::below(&node_over(&root), one(KEY, &[KEY.len()]), &value, out, size));
    each_room(|out, size| {
        sys::listing_car(DID.as_bytes(), rev.as_bytes(), one(KEY, &[KEY.len()]), one(b"\xa0", &[1]), out, size)
    });

    each_room(|out, size| sys::signed_commit(DID.as_bytes(), rev.as_bytes(), root.as_bytes(), &[7; 64], out, size));
    each_room(|out, size| sys::next_tid(rev.as_bytes(), 1, 7, out, size));
    each_room(|out, size| sys::file_head(root.as_bytes(), out, size));
    each_room(|out, size| sys::file_section(root.as_bytes(), node, out, size));
    let (mut commit, mut length) = ([0; 400], 0);
    assert_eq!(sys::signed_commit(DID.as_bytes(), rev.as_bytes(), root.as_bytes(), &[7; 64], &mut commit, &mut length), 0);
    each_room(|out, size| sys::read_commit(&commit[..length], out, size));

    let mut handle = opened();
    // A write that waits goes on waiting, and is done once.
    assert_eq!(handle.stage(0, b"a.b.c/e", b"\xa1\x61k\x01"), 0);
    each_room(|out, size| handle.get(KEY, out, size));
    each_room(|out, size| handle.rev(out, size));
    each_room(|out, size| handle.preview(DID.as_bytes(), tid(2).as_bytes(), &mut 0, out, size));
    each_room(|out, size| handle.list(b"", 9, out, size));
    each_room(|out, size| handle.car(out, size));
    each_room(|out, size| handle.prove(KEY, out, size));
    each_room(|out, size| handle.entries(b"", 9, out, size));
    each_room(|out, size| handle.car_head(out, size));
    let record = *Cid::of(b"\xa0").as_bytes();
    each_room(|out, size| handle.car_section(&record, out, size));
    let told = Told { keys: one(KEY, &[7]), befores: &[0; 36], afters: &record };
    each_room(|out, size| handle.prove_change(told.keys, &record, out, size));
    each_room(|out, size| handle.prove_inversion(told, &mut 0, out, size));
    let (mut proof, mut length) = ([0; 999], 0);
    assert_eq!(handle.prove(KEY, &mut proof, &mut length), 0);
    each_room(|out, size| sys::links(&proof[8..length], out, size));
    let mut number = 0;
    assert_eq!((handle.number(&mut number), number), (0, 1));
    assert_eq!(apply(&mut handle, DID, 2), 0);
    assert_eq!((handle.number(&mut number), number), (0, 2));
    assert_eq!(apply(&mut handle, DID, 3), 26);
}

/// A page has as many pairs as there is room for, and the next one goes on behind it.
#[test]
fn pages() {
    let mut handle = Handle::open(100).unwrap();
    for i in 0..50 {
        assert_eq!(handle.stage(0, key(i).as_bytes(), &record(i)), 0);
    }
    assert_eq!(apply(&mut handle, DID, 1), 0);
    let (mut all, mut whole) = (vec![0; 9999], 0);
    assert_eq!(handle.list(b"", 99, &mut all, &mut whole), 0);
    for room in (76..400).chain([whole - 1, whole, whole + 1]) {
        let (mut out, mut size, mut read, mut from) = (vec![0; room], 0, Vec::new(), Vec::new());
        while {
            assert_eq!(handle.entries(&from, 99, &mut out, &mut size), 0);
            size > 0
        } {
            // all keys are of one length
            assert_eq!(size, room.min(whole - read.len()) / 76 * 76);
            read.extend_from_slice(&out[..size]);
            from = [&out[size - 68..size - 36], &[0]].concat();
        }
        assert_eq!(read, all[..whole]);
    }
    let (mut out, mut size) = (vec![0; 75], 0);
    assert_eq!((handle.entries(b"", 99, &mut out, &mut size), size), (251, 76));
    assert_eq!((handle.entries(b"", 2, &mut all, &mut size), size), (0, 152));
    assert_eq!((handle.entries(b"", 0, &mut out, &mut size), size), (0, 0));
}

/// The text of a CID has 36 bytes of this profile alone, and nothing else is written.
#[test]
fn texts() {
    let (own, mut out) = (Cid::of(b""), [0xaa; 59]);
    let bytes = [&own.as_bytes()[..], &[0; 200]].concat();
    for length in 0..bytes.len() {
        // SAFETY: so many bytes, and room for a text.
        let is_one = unsafe { sys::tizulgech_cid_text(bytes.as_ptr(), length, out.as_mut_ptr(), 59) };
        assert_eq!(is_one, length == 36);
        assert_eq!(out.to_vec(), if is_one { own.to_string().into_bytes() } else { vec![0xaa; 59] });
        out = [0xaa; 59];
    }
}

/// The names of the Rust crate are those of the header.
#[test]
fn names_of_record_faults() {
    let numbers = numbers();
    for bytes in no_records() {
        let fault: RecordFault = check_record(&bytes).unwrap_err();
        let name: String = format!("{fault:?}")
            .chars()
            .flat_map(|letter| (letter.is_uppercase().then_some('_').into_iter()).chain(letter.to_uppercase()))
            .collect();
        assert_eq!(numbers[&name[1..]], sys::record_fault(&bytes));
    }
}

/// Bytes with some of them changed, cut off or added.
fn spoilt(bytes: &[u8], random: &mut Random) -> Vec<u8> {
    let mut bytes = bytes.to_vec();
    for _ in 0..random.below(4) {
        match random.below(4) {
            0 => bytes.truncate(random.below(bytes.len() as u64 + 1) as usize),
            1 => bytes.push(random.next() as u8),
            _ if bytes.is_empty() => {}
            _ => {
                let at = random.below(bytes.len() as u64) as usize;
                bytes[at] = random.next() as u8;
            }
        }
    }
    bytes
}

/// Whatever the bytes are, a call answers one of its numbers.
#[test]
fn spoilt_bytes() {
    let (mut root, mut nodes) = no_pairs();
    for number in 0..40 {
        root = change(&mut nodes, |nodes| tree::put(from(nodes), &root, key(number), &Cid::of(b"")).unwrap()).0;
    }
    let nodes: Vec<Vec<u8>> = nodes.into_values().collect();
    let (random, numbers) = (&mut Random(3), numbers());
    let names = |call: &str| ANSWERS.iter().find(|(it, _)| *it == call).unwrap().1;
    let is_one = |call: &str, number: u8| names(call).split_whitespace().any(|name| numbers[name] == number);
    let out = &mut vec![0; 1 << 16][..];
    for _ in 0..3000 {
        let node = spoilt(&nodes[random.below(nodes.len() as u64) as usize], random);
        let (key, record, text) =
            (spoilt(key(3).as_bytes(), random), spoilt(&record(1), random), spoilt(tree::EMPTY_ROOT.as_bytes(), random));
        let top = Cid::of(&node);
        let root = if random.below(2) == 0 { *root.as_bytes() } else { *top.as_bytes() };
        let (mut joined, mut ends) = (node.clone(), vec![node.len()]);
        for other in nodes.iter().take(random.below(9) as usize) {
            joined.extend(spoilt(other, random));
            ends.push(joined.len() + random.below(50) as usize / 49);
        }
        let value = spoilt(Cid::of(b"x").as_bytes(), random);
        assert!(is_one("record_fault", sys::record_fault(&record)));
        assert!(is_one("cid_from_text", sys::cid_from_text(&text, &mut [0; 36])));
        assert!(is_one("step", sys::step(&node, &key, &mut [0; 36])));
        assert!(is_one("verify", sys::verify(one(&joined, &ends), &root, &key, &mut [0; 36])));
        let mut apply = |cids: &[u8]| {
            let (mut missing, mut size) = ([0; 36], 0);
            let key_ends = [key.len()];
            let keys = one(&key, &key_ends);
            let number = sys::tree_apply(one(&joined, &ends), cids, &root, keys, &value, &mut missing, out, &mut size);
            (number, missing, out[..if number == 0 { size } else { 0 }].to_vec())
        };
        assert!(is_one("below", sys::below(&node, one(&key, &[key.len()]), &value, &mut [0; 200], &mut 0)));
        let told = apply(&[]);
        assert!(is_one("tree_apply", told.0));
        // the same where the CIDs of some nodes are known
        let mut cids = vec![0; 36 * ends.len()];
        let number = sys::cids(one(&joined, &ends), &mut cids, &mut 0);
        assert!(is_one("cids", number));
        if number == 0 {
            assert_eq!(apply(&cids[..36 * random.below(ends.len() as u64 + 1) as usize]), told);
        }
        let number = sys::tree_root(one(&joined, &ends), &value, &mut [0; 36], &mut 0);
        assert!(is_one("tree_root", number));
        let number = sys::listing_car(&key, &text, one(&key, &[key.len()]), one(&record, &[record.len()]), out, &mut 0);
        assert!(is_one("listing_car", number));
        sys::cid_text(&value.try_into().unwrap_or([0; 36]), &mut [0; 59]);
        sys::stamp_fault(&text, &key, &record);
    }
}
