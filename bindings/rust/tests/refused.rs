//! Memory that the system refuses while the writes of a batch are staged: none of them is left for the next one. Linux's limit on a
//! process's memory stands for a machine that has no more, so this is the only test of its file.
#![cfg(target_os = "linux")]
use tizulgech::*;

#[repr(C)]
struct Limit {
    now: u64,
    most: u64,
}

/// Linux's number for the bytes that a process may map.
const MAPPED: i32 = 9;

unsafe extern "C" {
    fn getrlimit(of: i32, limit: *mut Limit) -> i32;
    fn setrlimit(of: i32, limit: *const Limit) -> i32;
}

/// Does something while the process may map only so many bytes more.
fn within<T>(bytes: u64, what: impl FnOnce() -> T) -> T {
    let pages = std::fs::read_to_string("/proc/self/statm").unwrap();
    let mapped = 4096 * pages.split_whitespace().next().unwrap().parse::<u64>().unwrap();
    let mut before = Limit { now: 0, most: 0 };
    // SAFETY: one limit each.
    unsafe {
        assert_eq!(getrlimit(MAPPED, &mut before), 0);
        assert_eq!(setrlimit(MAPPED, &Limit { now: mapped + bytes, most: before.most }), 0);
    }
    let answer = what();
    // SAFETY: as above.
    assert_eq!(unsafe { setrlimit(MAPPED, &before) }, 0);
    answer
}

#[test]
fn while_staged() {
    let mut repository = Repository::open(100).unwrap();
    let (did, key, large) = ("did:web:example.com", "a.b.c/d", vec![0; 64 << 20]);
    let applied = repository.apply(Stamp { did, rev: "3jzfcijpj2z2a" }, &[Write::Put(key, b"\xa0")]).unwrap();
    let stamp = Stamp { did, rev: "3jzfcijpj2z2b" };
    let writes = [Write::Put("a.b.c/small", b"\xa0"), Write::Put(key, &large), Write::Put(key, &large), Write::Put(key, &large)];
    let refused = within(100 << 20, || repository.apply(stamp, &writes));
    assert_eq!(refused, Err(BatchError { place: 0, fault: BatchFault::NoMemory }));
    assert_eq!((repository.root(), repository.number()), (applied.root, 1));
    // The next batch is that of its own write.
    repository.apply(stamp, &[Write::Delete(key)]).unwrap();
    assert_eq!((repository.number(), repository.pairs("").count()), (2, 0));
}
