"""A plain model of the check of an export: what a CAR file is the export of, or its first fault, by the definitions.

It reads the tree node by node, tests the layer of each key and the order of all, and builds nothing anew.
"""

import re
from typing import NamedTuple

from lib.model import Ended, Fault, car_of, cid_of, data_of, fault_of_record, head, is_key, is_tid, layer, link, refused, text, text_of

OWN_CID = b"\x01\x71\x12\x20"
# The names of all that may be wrong with a file; that of a record's fault stands behind the record's place.
OF_CBOR = "Truncated LongHead Indefinite BadTag BadLink KeyNotText KeyOrder BadUtf8 Float Simple IntegerRange TooDeep Trailing".split()
OF_FILES = "Car(BadHeader) Car(BadLength) Car(Truncated) Car(BadCid) Misnamed NoCommit Commit(NotACommit) Commit(BadDid) Commit(BadRev) NotTheTree".split()
NAMES = [*OF_FILES, "BadKey", "NoRecord", "RecordSize", *(f"BadRecord({it})" for it in OF_CBOR), "NotAMap"]


class Export(NamedTuple):
    """Whose repository it is, its revision, its signature, the root of its tree, the commit before; and key, CID and bytes of each
    record, in the order of the keys."""

    did: bytes
    rev: bytes
    sig: bytes
    root: bytes
    prev: bytes | None
    records: list[tuple[bytes, bytes, bytes]]


def commit_bytes(did: bytes, rev: bytes, sig: bytes | None, root: bytes, prev: bytes | None) -> bytes:
    """A commit, or what is signed where there is no signature."""
    signature = b"" if sig is None else text(b"sig") + data_of(sig)
    out = head(5, 5 if sig is None else 6) + text(b"did") + text(did) + text(b"rev") + text(rev) + signature
    return out + text(b"data") + link(root) + text(b"prev") + link(prev) + text(b"version") + b"\x03"


# What a file is made of.


def number_at(data: bytes, at: int) -> tuple[int, int]:
    """The number at a place, in its shortest form of at most nine bytes, and the place after it."""
    number = 0
    for count, byte in enumerate(data[at : at + 9]):
        number |= (byte & 127) << 7 * count
        if byte < 128:
            if byte == 0 and count:
                break
            return number, at + count + 1
    raise Fault("Car(BadLength)")


def is_own_cid(cid: bytes) -> bool:
    return len(cid) == 36 and cid.startswith(OWN_CID)


def sections_of(file: bytes) -> tuple[bytes, list[tuple[bytes, bytes]]]:
    """The root of a CAR, and the CID and the block of each section."""
    root = file[14:50]
    at = len(car_of(root, []))
    if not is_own_cid(root) or file[:at] != car_of(root, []):
        raise Fault("Car(BadHeader)")
    found = []
    while at < len(file):
        length, begin = number_at(file, at)
        at = begin + length
        if at > len(file):
            raise Fault("Car(Truncated)")
        section = file[begin:at]
        if not is_own_cid(section[:36]):
            raise Fault("Car(BadCid)")
        found.append((section[:36], section[36:]))
    return root, found


class Spelling:
    """Reads a block that has one spelling, with one fault for all that is wrong in it."""

    def __init__(self, block: bytes, fault: str) -> None:
        self.left, self.name = block, fault

    @property
    def fault(self) -> Fault:
        return Fault(self.name)

    def take(self, count: int) -> bytes:
        if count > len(self.left):
            raise self.fault
        taken, self.left = self.left[:count], self.left[count:]
        return taken

    def exactly(self, wanted: bytes) -> None:
        if self.take(len(wanted)) != wanted:
            raise self.fault

    def number(self, major: int) -> int:
        first = self.take(1)[0]
        size = (first & 31) - 24
        if first >> 5 != major or size > 3:
            raise self.fault
        more = self.take(1 << size) if size >= 0 else b""
        number = int.from_bytes(more, "big") if size >= 0 else first & 31
        if head(major, number) != bytes([first]) + more:
            raise self.fault
        return number

    def string(self, major: int) -> bytes:
        return self.take(self.number(major))

    def link(self) -> bytes:
        self.exactly(link(OWN_CID)[:-4] + OWN_CID)
        return OWN_CID + self.take(32)

    def link_or_null(self) -> bytes | None:
        if self.left[:1] == b"\xf6":
            return self.take(1) and None
        return self.link()

    def end(self) -> None:
        if self.left:
            raise self.fault


# The commit.


def is_did(did: bytes) -> bool:
    return len(did) <= 2048 and bool(re.fullmatch(rb"did:[a-z]+:[A-Za-z0-9._:%-]*[A-Za-z0-9._-]", did))


def commit_in(block: bytes) -> tuple[bytes, bytes, bytes, bytes, bytes | None]:
    it = Spelling(block, "Commit(NotACommit)")
    it.exactly(head(5, 6) + text(b"did"))
    did = it.string(3)
    it.exactly(text(b"rev"))
    rev = it.string(3)
    it.exactly(text(b"sig"))
    sig = it.string(2)
    it.exactly(text(b"data"))
    root = it.link()
    it.exactly(text(b"prev"))
    prev = it.link_or_null()
    it.exactly(text(b"version") + b"\x03")
    it.end()
    if not is_did(did):
        raise Fault("Commit(BadDid)")
    if not is_tid(rev):
        raise Fault("Commit(BadRev)")
    return did, rev, sig, root, prev


# The tree.

NO_TREE = "NotTheTree"


class Node(NamedTuple):
    """Key, value and the link behind it of each entry, and the link before the first."""

    entries: list[tuple[bytes, bytes, bytes | None]]
    left: bytes | None


def node_in(block: bytes) -> Node:
    it, entries, before = Spelling(block, NO_TREE), [], b""
    it.exactly(b"\xa2" + text(b"e"))
    for _ in range(it.number(4)):
        it.exactly(b"\xa4" + text(b"k"))
        rest = it.string(2)
        it.exactly(text(b"p"))
        same = it.number(0)
        it.exactly(text(b"t"))
        below = it.link_or_null()
        it.exactly(text(b"v"))
        key = before[:same] + rest
        longest = next((n for n, (a, b) in enumerate(zip(before, key)) if a != b), min(len(before), len(key)))
        if same != longest or not before < key or len(key) > 1024:
            raise Fault(NO_TREE)
        entries.append((key, it.link(), below))
        before = key
    it.exactly(text(b"l"))
    node = Node(entries, it.link_or_null())
    it.end()
    return node


class Walk:
    """The pairs below a root, of which these blocks have each node."""

    def __init__(self, blocks: dict[bytes, bytes], root: bytes) -> None:
        self.blocks: dict[bytes, bytes] = blocks
        self.pairs: list[tuple[bytes, bytes]] = []
        top = self.node(root)
        if top.entries:
            self.add(top, layer(top.entries[0][0]))
        elif top.left:
            raise Fault(NO_TREE)

    def node(self, cid: bytes) -> Node:
        if cid not in self.blocks:
            raise Fault(NO_TREE)
        return node_in(self.blocks[cid])

    def below(self, cid: bytes | None, at: int) -> None:
        """The pairs of the node behind a link, which is to be of this layer and to lead to a pair."""
        if cid:
            node = self.node(cid)
            if at < 0 or not node.entries and not node.left:
                raise Fault(NO_TREE)
            self.add(node, at)

    def add(self, node: Node, at: int) -> None:
        self.below(node.left, at - 1)
        for key, value, below in node.entries:
            if layer(key) != at or self.pairs and key <= self.pairs[-1][0]:
                raise Fault(NO_TREE)
            self.pairs.append((key, value))
            self.below(below, at - 1)


# The whole.


def fault_at(blocks: dict[bytes, bytes], key: bytes, cid: bytes) -> str | None:
    if not is_key(key):
        return "BadKey"
    return fault_of_record(blocks[cid]) if cid in blocks else "NoRecord"


def export_in(file: bytes) -> Export:
    """What a file is the export of; its first fault else."""
    root, sections = sections_of(file)
    if any(cid_of(block) != cid for cid, block in sections):
        raise Fault("Misnamed")
    blocks = dict(sections)
    if root not in blocks:
        raise Fault("NoCommit")
    did, rev, sig, data, prev = commit_in(blocks[root])
    pairs = Walk(blocks, data).pairs
    for place, (key, cid) in enumerate(pairs):
        fault = fault_at(blocks, key, cid)
        if fault:
            raise Fault(f"record {place}: {fault}")
    return Export(did, rev, sig, data, prev, [(key, cid, blocks[cid]) for key, cid in pairs])


def told(command: list[str], found: Export) -> bytes:
    """What a command tells of a repository."""
    if command[0] == "check":
        return f"{found.did.decode()} {found.rev.decode()} {text_of(found.root)} {len(found.records)}\n".encode()
    if command[0] == "commit":
        return f"{commit_bytes(found.did, found.rev, None, found.root, found.prev).hex()}\n{found.sig.hex()}\n".encode()
    values = [text_of(cid) if "--cids" in command else record.hex() for _, cid, record in found.records]
    return "".join(f"{key.decode()} {value}\n" for (key, _, _), value in zip(found.records, values)).encode()


def answer(command: list[str], file: bytes) -> Ended:
    """What `check`, `records`, `records --cids` and `commit` write, or the first fault of the file."""
    try:
        return Ended(0, told(command, export_in(file)), b"")
    except Fault as fault:
        return refused(str(fault))
