//! The small host of the examples: its log cut off at each byte, damaged at each byte, and random batches over restarts.
#[path = "common/car.rs"]
mod car;
mod common;
#[allow(dead_code)]
#[path = "../examples/small_host.rs"]
mod small_host;

use common::{DID, Random, key, record};
use small_host::{Changes, Host, tid};
use std::collections::BTreeMap;
use std::fs;
use std::path::PathBuf;

/// A file of one test, which goes with it.
struct Log(PathBuf);

impl Log {
    fn new(name: &str) -> Log {
        let log = Log(std::env::temp_dir().join(format!("small_host_{name}_{}", std::process::id())));
        let _ = fs::remove_file(&log.0);
        log
    }

    fn open(&self) -> Host {
        Host::open(DID, &self.0).unwrap()
    }
}

impl Drop for Log {
    fn drop(&mut self) {
        let _ = fs::remove_file(&self.0);
    }
}

/// Random batches, the host opened anew before every third one: it is the plain map.
#[test]
fn restarts() {
    let (log, mut random) = (Log::new("restarts"), Random(5));
    let (mut host, mut plain) = (log.open(), BTreeMap::new());
    for turn in 0..150 {
        let drawn: BTreeMap<String, Option<Vec<u8>>> = (0..random.below(6))
            .map(|_| (key(random.below(40)), (random.below(3) > 0).then(|| record(random.below(20)))))
            .collect();
        host.apply(&tid(turn + 1), &drawn.iter().map(|(key, record)| (key.as_str(), record.as_deref())).collect()).unwrap();
        for (key, record) in drawn {
            match record {
                Some(record) => plain.insert(key, record),
                None => plain.remove(&key),
            };
        }
        if turn % 3 == 0 {
            drop(host);
            host = log.open();
        }
        assert!(host.is_whole().unwrap());
        assert_eq!((host.root, &host.records, host.batches), (common::scratch(&plain), &plain, turn + 1));
        for number in 0..3 {
            let key = key(13 * number);
            assert_eq!(
                host.prove(&key).unwrap().verify(&host.root, &key),
                Ok(plain.get(&key).map(|record| tizulgech::Cid::of(record)))
            );
        }
        let file = car::read(&host.car().unwrap());
        assert_eq!(
            (file.root, file.commit, file.records),
            (host.root, tizulgech::Cid::of(&host.commit().unwrap()), plain.clone())
        );
    }
}

/// A log that was cut off anywhere is that of the batches that stand whole in it, and takes further ones.
#[test]
fn cut_off() {
    let log = Log::new("cut_off");
    let mut ends = vec![(0, log.open().root)];
    for turn in 0..2 {
        let mut host = log.open();
        let record = record(turn);
        host.apply(
            &tid(turn + 1),
            &Changes::from([(&*key(turn), Some(&*record)), (&*key(turn + 9), Some(b"\xa0")), (&*key(turn / 2), None)]),
        )
        .unwrap();
        ends.push((fs::metadata(&log.0).unwrap().len(), host.root));
    }
    let whole = fs::read(&log.0).unwrap();
    for length in 0..=whole.len() {
        fs::write(&log.0, &whole[..length]).unwrap();
        let batches = ends.iter().rposition(|(end, _)| *end <= length as u64).unwrap();
        let mut host = log.open();
        assert_eq!((host.batches, host.root), (batches as u64, ends[batches].1));
        host.apply(&tid(9), &Changes::from([(&*key(99), Some(&b"\xa0"[..]))])).unwrap();
        assert!(host.is_whole().unwrap() && log.open().root == host.root);
    }
}

/// A byte that has changed is noticed, unless it makes the log look cut off.
#[test]
fn damaged() {
    let log = Log::new("damaged");
    let mut roots = vec![log.open().root];
    for turn in 0..2 {
        let mut host = log.open();
        host.apply(&tid(turn + 1), &Changes::from([(&*key(turn), Some(&b"\xa0"[..]))])).unwrap();
        roots.push(host.root);
    }
    let whole = fs::read(&log.0).unwrap();
    for at in 0..whole.len() {
        let mut bytes = whole.clone();
        bytes[at] ^= 1;
        fs::write(&log.0, &bytes).unwrap();
        if let Ok(host) = Host::open(DID, &log.0) {
            assert!(host.batches < 2 && host.root == roots[host.batches as usize]);
        }
    }
}

/// What is refused leaves all as it was.
#[test]
fn refused() {
    let log = Log::new("refused");
    let mut host = log.open();
    let good = key(1);
    host.apply(&tid(5), &Changes::from([(&*good, Some(&b"\xa0"[..]))])).unwrap();
    let (root, bytes) = (host.root, fs::read(&log.0).unwrap());
    let long = [b"\xa1\x64text\x5a\x00\x10\x00\x00".as_slice(), &vec![0; 1 << 20]].concat();
    for (rev, key, record) in [
        (tid(5), &*good, &b"\xa0"[..]),
        ("1".into(), &*good, b"\xa0"),
        (tid(6), "a", b"\xa0"),
        (tid(6), &*good, b"\xf5"),
        (tid(6), &*good, b"\xa1"),
        (tid(6), &*good, b""),
        (tid(6), &*good, &long),
    ] {
        assert!(host.apply(&rev, &Changes::from([("a.b.c/d", Some(&b"\xa0"[..])), (key, Some(record))])).is_err());
        assert_eq!((host.root, host.records.len(), host.batches, &fs::read(&log.0).unwrap()), (root, 1, 1, &bytes));
    }
}
