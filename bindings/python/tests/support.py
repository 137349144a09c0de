"""What the tests share: keys, records and revisions by a number, nodes that are put together by hand, and files of the repository."""
import hashlib
import importlib.util
import os
import sys
import threading

import tizulgech as t

ROOT = os.path.dirname(os.path.dirname(os.path.dirname(os.path.dirname(os.path.abspath(__file__)))))
DID = "did:web:example.com"
TID = "234567abcdefghijklmnopqrstuvwxyz"


def read(path):
    """A file of the repository, by its path from the top."""
    with open(os.path.join(ROOT, path), encoding="utf-8") as it:
        return it.read()


def module(path):
    """A Python file of the repository that no package has."""
    spec = importlib.util.spec_from_file_location(os.path.basename(path)[:-3], os.path.join(ROOT, path))
    found = importlib.util.module_from_spec(spec)
    spec.loader.exec_module(found)
    return found


def tid(n):
    return "".join(TID[n >> (5 * i) & 31] for i in reversed(range(13)))


def key(n):
    return f"app.bsky.feed.post/{hashlib.sha256(b'%d' % n).hexdigest()[:13]}"


def record(n):
    return b"\xa1ak\x1a" + n.to_bytes(4, "big") if n > 0xFFFF else b"\xa1ak\x19" + (n | 0x100).to_bytes(2, "big")


def node_over(cid):
    """A node without entries, over another one."""
    return b"\xa2ae\x80al\xd8\x2a\x58\x25\x00" + cid.bytes


def node_of(left, key, right):
    """A node of one pair, with a link before it and one behind it."""
    link = lambda cid: b"\xd8\x2a\x58\x25\x00" + cid.bytes if cid else b"\xf6"
    return b"\xa2ae\x81\xa4ak" + bytes([0x40 + len(key)]) + key + b"ap\x00at" + link(right) + b"av" + link(t.Cid.of(b"")) + b"al" + link(left)


def together(works):
    """Does all of these at once, each on a thread of its own, and turns from one to another as often as can be."""
    interval, threads = sys.getswitchinterval(), [threading.Thread(target=it) for it in works]
    sys.setswitchinterval(1e-5)
    try:
        for it in threads:
            it.start()
        for it in threads:
            it.join()
    finally:
        sys.setswitchinterval(interval)
