"""A plain model of msthost: what it writes, and how it ends, by the definitions and nothing of the program's own.

It has a dictionary a repository, builds each tree afresh, and reads DAG-CBOR by the list of its faults.
"""

import base64
import hashlib
import re
from collections.abc import Callable
from typing import NamedTuple

# The DID that the program takes where none is given.
DID = b"did:web:localhost"
EMPTY_NODE = b"\xa2\x61e\x80\x61l\xf6"


class Ended(NamedTuple):
    """What a command comes to: its status, what it writes, and what it says is wrong."""

    status: int
    out: bytes
    err: bytes


# What a CID, a node, a commit and a file are.


def cid_of(data: bytes) -> bytes:
    return b"\x01\x71\x12\x20" + hashlib.sha256(data).digest()


def text_of(cid: bytes) -> str:
    return "b" + base64.b32encode(cid).decode().rstrip("=").lower()


def cid_in(text: str) -> bytes:
    """The bytes that a CID's text stands for; whether they are a CID is not looked at."""
    return base64.b32decode(text[1:].upper() + "=" * (-len(text[1:]) % 8))


def layer(key: bytes, bits: int = 2) -> int:
    digest = int.from_bytes(hashlib.sha256(key).digest(), "big")
    return (256 - digest.bit_length()) // bits


def head(major: int, number: int) -> bytes:
    if number < 24:
        return bytes([major * 32 + number])
    more, size = next((m, s) for m, s in ((24, 1), (25, 2), (26, 4), (27, 8)) if number < 256**s)
    return bytes([major * 32 + more]) + number.to_bytes(size, "big")


def data_of(data: bytes) -> bytes:
    return head(2, len(data)) + data


def text(words: bytes) -> bytes:
    return head(3, len(words)) + words


def link(cid: bytes | None) -> bytes:
    return b"\xf6" if cid is None else b"\xd8\x2a\x58\x25\x00" + cid


class Part(NamedTuple):
    """A subtree: the CID of its node, its blocks in the order of a file, and its nodes on a key's path."""

    cid: bytes | None
    order: list[bytes]
    path: Callable[[bytes], list[bytes]]


class Tree:
    """The tree of a dictionary from keys to CIDs: its root, its blocks in the order of a file, its nodes on a key's path.

    Of records that aren't there the blocks have none.
    """

    def __init__(self, leaves: dict[bytes, bytes], records: dict[bytes, bytes], bits: int = 2) -> None:
        self.records, self.bits = records, bits
        pairs = sorted(leaves.items())
        top = max((layer(key, bits) for key, _ in pairs), default=0)
        part = self.part(pairs, top, is_root=True)
        self.root, self.order, self.path = part.cid or b"", part.order, part.path

    def part(self, pairs: list[tuple[bytes, bytes]], at: int, is_root: bool = False) -> Part:
        if not pairs and not is_root:
            return Part(None, [], lambda key: [])
        here = [i for i, (key, _) in enumerate(pairs) if layer(key, self.bits) == at]
        ends = [-1, *here, len(pairs)]
        parts = [self.part(pairs[a + 1 : b], at - 1) for a, b in zip(ends, ends[1:])]
        entries, before = b"", b""
        for i, below in zip(here, parts[1:]):
            key, value = pairs[i]
            same = next((n for n, (a, b) in enumerate(zip(before, key)) if a != b), min(len(before), len(key)))
            entries += b"\xa4" + text(b"k") + data_of(key[same:]) + text(b"p") + head(0, same)
            entries += text(b"t") + link(below.cid) + text(b"v") + link(value)
            before = key
        node = b"\xa2" + text(b"e") + head(4, len(here)) + entries + text(b"l") + link(parts[0].cid)
        order = [node, *parts[0].order]
        for i, below in zip(here, parts[1:]):
            value = pairs[i][1]
            order += [*([self.records[value]] if value in self.records else []), *below.order]

        def path(key: bytes) -> list[bytes]:
            if any(pairs[i][0] == key for i in here):
                return [node]
            return [node, *parts[sum(pairs[i][0] < key for i in here)].path(key)]

        return Part(cid_of(node), order, path)


def commit_of(did: bytes, rev: bytes, root: bytes) -> bytes:
    return (b"\xa5" + text(b"did") + text(did) + text(b"rev") + text(rev) + text(b"data") + link(root)
            + text(b"prev") + b"\xf6" + text(b"version") + b"\x03")


def varint(number: int) -> bytes:
    out = b""
    while number > 127:
        out, number = out + bytes([number % 128 + 128]), number // 128
    return out + bytes([number])


def car_of(root: bytes, blocks: list[bytes]) -> bytes:
    header = b"\xa2" + text(b"roots") + b"\x81" + link(root) + text(b"version") + b"\x01"
    out = [varint(len(header)) + header]
    seen: set[bytes] = set()
    for block in blocks:
        cid = cid_of(block)
        if cid not in seen:
            seen.add(cid)
            out.append(varint(36 + len(block)) + cid + block)
    return b"".join(out)


# What is read, and which fault is the first.


class Fault(Exception):
    pass


class Reader:
    def __init__(self, data: bytes) -> None:
        self.data, self.at = data, 0

    def take(self, count: int) -> bytes:
        if len(self.data) - self.at < count:
            raise Fault("Truncated")
        self.at += count
        return self.data[self.at - count : self.at]

    def head(self) -> tuple[int, int]:
        first = self.take(1)[0]
        major, low = first >> 5, first & 31
        if major == 7:
            if first in (0xF9, 0xFA, 0xFB):
                raise Fault("Float")
            if first not in (0xF4, 0xF5, 0xF6):
                raise Fault("Indefinite" if first == 0xFF else "Simple")
            return major, low
        if low < 24:
            return major, low
        if low > 27:
            raise Fault("Indefinite" if low == 31 else "LongHead")
        number = int.from_bytes(self.take(1 << (low - 24)), "big")
        if number < (24, 1 << 8, 1 << 16, 1 << 32)[low - 24]:
            raise Fault("LongHead")
        return major, number

    def text(self, count: int) -> str:
        try:
            return self.take(count).decode("utf-8")
        except UnicodeDecodeError:
            raise Fault("BadUtf8") from None

    def value(self, level: int) -> int:
        major, number = self.head()
        if major in (0, 1):
            if number > 2**63 - 1:
                raise Fault("IntegerRange")
        elif major == 2:
            self.take(number)
        elif major == 3:
            self.text(number)
        elif major in (4, 5):
            if level > 64:
                raise Fault("TooDeep")
            before: bytes | None = None
            for _ in range(number):
                if major == 5:
                    before = self.key(before)
                self.value(level + 1)
        elif major == 6:
            if number != 42:
                raise Fault("BadTag")
            self.begins(2, "BadLink")
            held = self.take(self.head()[1])
            if not held.startswith(b"\0") or not is_cid(held[1:]):
                raise Fault("BadLink")
        return major

    def begins(self, major: int, fault: str) -> None:
        if self.at == len(self.data):
            raise Fault("Truncated")
        if self.data[self.at] >> 5 != major:
            raise Fault(fault)

    def key(self, before: bytes | None) -> bytes:
        self.begins(3, "KeyNotText")
        key = self.text(self.head()[1]).encode()
        if before is not None and (len(key), key) <= (len(before), before):
            raise Fault("KeyOrder")
        return key


def is_cid(data: bytes) -> bool:
    if data[:2] == b"\x12\x20" and len(data) == 34:
        return True
    numbers = []
    for _ in range(4):
        number, shift = 0, 0
        while True:
            if shift >= 63 or not data:
                return False
            byte, data = data[0], data[1:]
            number |= (byte & 127) << shift
            shift += 7
            if byte < 128:
                break
        if byte == 0 and shift > 7:
            return False
        numbers.append(number)
    return numbers[0] == 1 and len(data) == numbers[3]


def fault_of_record(record: bytes) -> str | None:
    if len(record) > 1_048_576:
        return "RecordSize"
    reader = Reader(record)
    try:
        major = reader.value(1)
        if reader.at < len(record):
            raise Fault("Trailing")
    except Fault as fault:
        return f"BadRecord({fault})"
    return None if major == 5 else "NotAMap"


def is_key(key: bytes) -> bool:
    found = re.fullmatch(rb"([A-Za-z0-9.-]{1,317})/([A-Za-z0-9._:~-]{1,512})", key)
    return found is not None and found[2] not in (b".", b"..")


def is_tid(rev: bytes) -> bool:
    return bool(re.fullmatch(rb"[234567abcdefghij][234567abcdefghijklmnopqrstuvwxyz]{12}", rev))


class Write(NamedTuple):
    kind: bytes
    key: bytes
    record: bytes


class Repository:
    def __init__(self) -> None:
        self.leaves: dict[bytes, bytes] = {}
        self.records: dict[bytes, bytes] = {}
        self.number, self.rev = 0, b""
        self.commit: bytes | None = None

    def tree(self) -> Tree:
        return Tree(self.leaves, self.records)

    def apply(self, did: bytes, rev: bytes, writes: list[Write]) -> tuple[int, str] | None:
        """Applies a batch, or answers the place and the name of what refuses it."""
        if not is_tid(rev):
            return 0, "BadRev"
        if rev <= self.rev:
            return 0, "RevOrder"
        leaves, records = dict(self.leaves), dict(self.records)
        for place, (kind, key, record) in enumerate(writes):
            if not is_key(key):
                return place, "BadKey"
            fault = fault_of_record(record) if kind != b"delete" else None
            if fault:
                return place, fault
            if kind == b"create" and key in leaves:
                return place, "KeyExists"
            if kind in (b"update", b"delete") and key not in leaves:
                return place, "NoSuchKey"
            if kind == b"delete":
                del leaves[key]
            else:
                leaves[key] = cid_of(record)
                records[leaves[key]] = record
        self.leaves, self.records, self.rev = leaves, records, rev
        self.number += len(writes)
        self.commit = commit_of(did, rev, self.tree().root)
        return None

    def blocks(self) -> list[bytes]:
        return ([self.commit] if self.commit else []) + self.tree().order


# What the commands answer.


def hex_of(token: bytes) -> bytes | None:
    if len(token) % 2 or not re.fullmatch(rb"[0-9a-fA-F]+", token):
        return None
    return bytes.fromhex(token.decode())


def write_of(tokens: list[bytes]) -> Write | None:
    if len(tokens) == 2 and tokens[0] == b"delete":
        return Write(b"delete", tokens[1], b"")
    if len(tokens) == 3 and tokens[0] in (b"put", b"create", b"update"):
        record = hex_of(tokens[2])
        return None if record is None else Write(tokens[0], tokens[1], record)
    return None


class Line(NamedTuple):
    """A line of a script: whose it is, of which repository, and a key that is asked for or a batch under a revision."""

    worker: int
    repo: int
    asked: bytes | None
    rev: bytes
    writes: list[Write]


def line_of(line: bytes, workers: int) -> Line | None:
    tokens = line.split(b" ")
    if len(tokens) < 4 or not all(tokens):
        return None
    worker, repo = (int(it) if re.fullmatch(rb"[0-9]{1,10}", it) else 2**32 for it in tokens[:2])
    if max(worker, repo) > 2**32 - 1 or worker >= workers:
        return None
    if len(tokens) == 4 and tokens[2] == b"get":
        return Line(worker, repo, tokens[3], b"", [])
    parts: list[list[bytes]] = [[]]
    for token in tokens[3:]:
        if token == b";":
            parts.append([])
        else:
            parts[-1].append(token)
    writes = [write for write in map(write_of, parts) if write]
    return Line(worker, repo, None, tokens[2], writes) if len(writes) == len(parts) else None


def lines_of(data: bytes) -> list[tuple[int, bytes]]:
    lines = data.split(b"\n")
    lines = lines if lines[-1] else lines[:-1]
    return [(n, it[:-1] if it.endswith(b"\r") else it) for n, it in enumerate(lines, 1) if it not in (b"", b"\r")]


def refused(why: str, line: int | None = None) -> Ended:
    where = "" if line is None else f"line {line}: "
    return Ended(1, b"", f"msthost: {where}{why}\n".encode())


def written(lines: list[str]) -> Ended:
    return Ended(0, "".join(f"{it}\n" for it in lines).encode(), b"")


def shown(hosted: list[Repository]) -> list[str]:
    """The lines on repositories, and on how many of them hold each block."""
    out, counts = [], dict[bytes, int]()
    for number, it in enumerate(hosted):
        commit = text_of(cid_of(it.commit)) if it.commit else "none"
        out.append(f"repo {number} {text_of(it.tree().root)} {it.number} {commit}")
        for cid in {cid_of(block) for block in it.blocks()}:
            counts[cid] = counts.get(cid, 0) + 1
    return out + [f"block {text_of(cid)} {count}" for cid, count in sorted(counts.items())]


def run(repos: int, workers: int, script: bytes, did: bytes = DID) -> Ended:
    """What `run` writes where each repository is used by one worker."""
    lines: list[tuple[int, Line]] = []
    for n, it in lines_of(script):
        read = line_of(it, workers)
        if not read:
            return refused("BadScript", n)
        lines.append((n, read))
    hosted, out = [Repository() for _ in range(repos)], []
    told: list[list[str]] = [[] for _ in range(workers)]
    for n, line in lines:
        if line.repo >= repos:
            out.append(f"{n} refused 0 NoSuchRepository")
            continue
        repository = hosted[line.repo]
        if line.asked is not None:
            cid = repository.leaves.get(line.asked)
            out.append(f"{n} none" if cid is None else f"{n} found {repository.records[cid].hex()}")
            continue
        fault = repository.apply(did, line.rev, line.writes)
        if fault:
            out.append(f"{n} refused {fault[0]} {fault[1]}")
            continue
        number, own = repository.number, told[line.worker]
        out.append(f"{n} ok {number}")
        own.append(f"notice {line.worker} {len(own) + 1} {line.repo} {number} {text_of(repository.tree().root)}")
    return written([*out, *shown(hosted), *(notice for own in told for notice in own)])


def filled(data: bytes, rev: bytes, did: bytes = DID) -> Repository | Ended:
    """The repository that the lines of `car` and `prove` leave, or the first fault."""
    repository = Repository()
    for n, line in lines_of(data):
        tokens = line.split(b" ")
        record = hex_of(tokens[1]) if len(tokens) == 2 and all(tokens) else None
        if record is None:
            return refused("BadLine", n)
        fault = fault_of_record(record) if is_key(tokens[0]) else "BadKey"
        if fault:
            return refused(fault, n)
        cid = cid_of(record)
        repository.leaves[tokens[0]] = cid
        repository.records[cid] = record
    if repository.leaves:
        repository.commit = commit_of(did, rev, repository.tree().root)
    return repository


def tree(listing: bytes, bits: int = 2) -> Ended:
    """What `tree` writes of a listing without a faulty line."""
    leaves = {}
    for _, line in lines_of(listing):
        key, _, cid = line.rpartition(b" ")
        leaves[key] = cid_in(cid.decode())
    made = Tree(leaves, {}, bits)
    return written([text_of(made.root), *(f"{text_of(cid_of(it))} {it.hex()}" for it in made.order)])


def car(data: bytes, rev: bytes, did: bytes = DID) -> Ended:
    repository = filled(data, rev, did)
    if isinstance(repository, Ended):
        return repository
    root = cid_of(repository.commit) if repository.commit else repository.tree().root
    return Ended(0, car_of(root, repository.blocks()), b"")


def prove(data: bytes, key: bytes) -> Ended:
    repository = filled(data, b"")
    if isinstance(repository, Ended):
        return repository
    if not 0 < len(key) <= 1024:
        return refused("KeyLength")
    made = repository.tree()
    return written([text_of(made.root), *(it.hex() for it in made.path(key))])
