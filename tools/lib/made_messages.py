"""Made messages `#commit` of repositories, most of them spoilt, in streams as `check-event` reads them; and batches as `commit-event`
reads them, faulty ones among them. Each fault comes.

A way to spoil changes a draft of the message, which has the true CIDs whatever stands in it; or the sections of its file; or the
pieces of that; or the fields of the message and of its operations; or its bytes. The first three are those of exports too.
"""

from collections.abc import Callable
from random import Random
from typing import NamedTuple

from lib import made_exports
from lib.exports import commit_bytes
from lib.inversions import Undoing
from lib.made_exports import FAULTY, OF_PIECES, OF_SECTIONS, Branch, Draft, Sections, field, turn_of
from lib.made_input import made_keys, made_map, made_rev
from lib.messages import (HEADER, KINDS_OF_FIELDS, MOST_BYTES, MOST_BYTES_OF_BLOCKS, MOST_BYTES_OF_RECORD, Event, Op, Words, fields_of_event, fields_of_op, map_of,
                          ops_between, value_in)
from lib.model import Repository, Write, car_of, cid_of, data_of, head, link, text, text_of, varint

# Histories.


class Step(NamedTuple):
    """A batch: what the message tells beside it, the repository before, its writes, and the repository after."""

    words: Words
    old: Repository
    writes: list[Write]
    new: Repository


def after(old: Repository, writes: list[Write]) -> Repository:
    new = Repository()
    new.leaves, new.records = dict(old.leaves), dict(old.records)
    for kind, key, record in writes:
        if kind == b"delete":
            del new.leaves[key]
        else:
            new.leaves[key] = cid_of(record)
            new.records[new.leaves[key]] = record
    return new


GOOD_TIMES = [b"2026-11-30T12:00:00Z", b"2026-11-30T12:00:00.123Z", b"2026-11-30T12:00:00.5+01:00", b"2026-11-30T12:00:00." + 43 * b"1" + b"Z",
              b"9999-99-99T99:99:99-99:99", b"0000-00-00T00:00:00Z", b"2026-11-30T12:00:00.0+00:00"]
BAD_TIMES = [
    b"", b"2026-11-30", b"2026-11-30T12:00:00", b"2026-11-30T12:00:00z", b"2026-11-30t12:00:00Z", b"2026-11-30 12:00:00Z", b"2026-11-30T12:00:00.Z", b"2026-11-30T12:00Z",
    b"2026-11-30T12:00:00+0100", b"2026-11-30T12:00:00+01", b"12026-11-30T12:00:00Z", b"2026-11-30T12:00:00ZZ", b"2026-11-30T12:00:00.5", b"2026-11-30T12:00:00,5Z",
    b"2026-11-30T12:00:00." + 44 * b"1" + b"Z", "2026-11-30T12:00:0\u0661Z".encode(), b"2026-11-30T12:00:00Z\n",
]


class History:
    """A repository that takes one batch after the other."""

    def __init__(self, pick: Random) -> None:
        self.pick, self.did = pick, b"did:plc:" + made_rev(pick.getrandbits(60))
        self.clock, self.seq = pick.getrandbits(50), pick.choice([0, 22, 254, 65_534, 2**32 - 2, 2**62])
        self.since: bytes | None = None
        self.keys = made_keys(pick, pick.choice([1, 3, 8, 30, 60]))
        first = [Write(b"put", key, made_map(pick)) for key in self.keys if pick.random() < 0.7]
        self.repository = after(Repository(), first if pick.random() < 0.9 else [])

    def write(self, leaves: dict[bytes, bytes]) -> Write:
        key = self.pick.choice(self.keys)
        there = b"update" if key in leaves else b"create"
        kind = self.pick.choice([b"put", there, there, *(2 * [b"delete"] if key in leaves else [])])
        return Write(kind, key, b"" if kind == b"delete" else made_map(self.pick))

    def writes(self) -> list[Write]:
        found, leaves = list[Write](), dict(self.repository.leaves)
        for _ in range(self.pick.choice([1, 1, 1, 2, 3, 8])):
            found.append(self.write(leaves))
            leaves.pop(found[-1].key, None)
            leaves |= {} if found[-1].kind == b"delete" else {found[-1].key: b""}
        return found

    def step(self, writes: list[Write] | None = None) -> Step:
        """The next batch, of these writes or of some that are picked."""
        old, done, pick = self.repository, self.writes() if writes is None else writes, self.pick
        self.repository = after(old, done)
        self.clock += pick.randrange(1, 9)
        self.seq += pick.choice([1, 1, 5])
        rev, sig = made_rev(self.clock), pick.randbytes(pick.choice([64, 64, 1, 300])).hex().encode()
        words = Words(self.did, rev, self.since, self.seq, pick.choice(GOOD_TIMES), sig)
        self.since = pick.choice([rev, rev, None])
        return Step(words, old, done, self.repository)


# Drafts.


class Message(Draft):
    """What a message tells, each with its commit's fields, its tree, and its records as of an export."""

    def __init__(self, pick: Random, step: Step) -> None:
        words = step.words
        self.words, self.did, self.rev = words, words.did, words.rev
        self.sig, self.prev, self.root, self.turned = bytes.fromhex(words.sig.decode()), None, None, bytes
        self.ops, self.held = ops_between(step.old, step.new), step.new.records
        self.records = {op.after: self.held[op.after] for op in self.ops if op.after}
        self.previous = self.before = step.old.tree().root
        self.commit: bytes | None = None
        self.is_slice, self.is_first = True, False
        self.plant(step.new.leaves)

    def tell(self, op: Op) -> None:
        """Puts an operation in the place of one on its key, with its record where the repository had that."""
        places = [at for at, it in enumerate(self.ops) if it.key == op.key]
        if places:
            self.ops[places[0]] = op
        else:
            self.ops.append(op)
        self.take(op.after)

    def take(self, cid: bytes | None) -> None:
        """The file has this record, where the repository has it."""
        if cid and cid in self.held:
            self.records[cid] = self.held[cid]

    def undoing(self) -> tuple[Undoing, list[bytes]]:
        """The changes undone over all nodes, and these."""
        nodes: list[bytes] = []
        root = self.root or cid_of(self.tree.block(nodes))
        blocks = {cid_of(it): it for it in [*nodes, *self.records.values()]}
        return Undoing(blocks, sorted({op.key: op.before for op in self.ops}.items()), root), nodes[::-1]

    def sections(self) -> Sections:
        undoing, nodes = self.undoing()
        root = self.root or cid_of(nodes[0])
        commit = self.turned(commit_bytes(self.did, self.rev, self.sig, root, self.prev))
        records = [self.records[op.after] for op in self.ops if op.after in self.records] if self.is_slice else [*self.records.values()]
        blocks = dict.fromkeys([commit, *(undoing.read if self.is_slice else nodes), *records])
        return [(cid_of(it), it) for it in blocks]


class Parts:
    """The fields of a message and of its operations, each as its bytes."""

    def __init__(self, draft: Message, file: bytes, commit: bytes) -> None:
        words = draft.words
        self.file = file
        event = Event(words.seq, words.did, draft.commit or commit, words.rev, words.since, b"", [], words.time, draft.before)
        self.fields, self.ops = fields_of_event(event), [fields_of_op(op) for op in draft.ops]
        self.others: list[bytes] = []
        del self.fields[b"blocks"]

    def message(self) -> bytes:
        """Its fields that are given decide, and the others are those of the file and of the operations."""
        ops = [*map(map_of, self.ops), *self.others]
        fields = {b"blocks": data_of(self.file), b"ops": head(4, len(ops)) + b"".join(ops), **self.fields}
        return HEADER + map_of({name: value for name, value in fields.items() if value})


# Ways to spoil a draft.


def of_export(spoil: Callable[[Random, Draft], None]) -> Callable[[Random, Message], None]:
    """The tree or the commit are spoilt as those of an export; its nodes are all in the file, or those that are read."""

    def spoilt(pick: Random, it: Message) -> None:
        spoil(pick, it)
        it.is_slice = pick.random() < 0.5

    return spoilt


def with_record(pick: Random, it: Message, record: bytes) -> None:
    """An operation leaves this record, and the tree has it."""
    key, cid = pick.choice([b"a/faulty", *it.leaves(), *(op.key for op in it.ops)]), cid_of(record)
    before = [op.before for op in it.ops if op.key == key]
    it.records[cid] = record
    it.tell(Op(key, pick.choice(before or [None, cid_of(b"")]), cid))
    it.plant({**it.leaves(), key: cid})


def faulty_record(name: str) -> Callable[[Random, Message], None]:
    return lambda pick, it: with_record(pick, it, field(pick.choice(FAULTY[name])))


def trailing(pick: Random, it: Message) -> None:
    with_record(pick, it, made_map(pick) + pick.choice([b"\0", b"\xa0", b"\xff"]))


def no_map(pick: Random, it: Message) -> None:
    with_record(pick, it, pick.choice([b"\x80", b"\x01", b"\x61a", b"\xf6", b"\x81\xa0", b"\x41a", link(cid_of(b""))]))


def long_record(size: int) -> bytes:
    """A record of so many bytes."""
    return field(b"\x5a" + (size - 8).to_bytes(4, "big") + bytes(size - 8))


def large(pick: Random, it: Message) -> None:
    with_record(pick, it, long_record(MOST_BYTES_OF_RECORD))


def too_large(pick: Random, it: Message) -> None:
    """A record of a byte too many, which may be none besides."""
    record = long_record(MOST_BYTES_OF_RECORD + 1)
    with_record(pick, it, pick.choice([record, b"\xff" + record[1:]]))


def no_record(pick: Random, it: Message) -> None:
    """The record of an operation isn't in the file."""
    with_record(pick, it, made_map(pick))
    del it.records[pick.choice([*it.records])]


def changed_op(pick: Random, it: Message) -> None:
    """An operation tells of another record before or after, or of another key, or of none."""
    if not it.ops:
        return no_record(pick, it)
    at, other, key = pick.randrange(len(it.ops)), pick.choice([None, cid_of(b""), *it.held]), pick.choice([b"a/other", *it.leaves()])
    op = it.ops[at]
    it.ops[at] = pick.choice([op._replace(before=other), op._replace(after=other), op._replace(key=key), Op(op.key, op.after, op.before)])
    it.take(it.ops[at].after)


def dropped_op(pick: Random, it: Message) -> None:
    if it.ops:
        del it.ops[pick.randrange(len(it.ops))]


def more_ops(pick: Random, it: Message) -> None:
    """Operations on keys that nothing was done to, or on another operation's key."""
    for _ in range(pick.randrange(1, 3)):
        leaves = it.leaves()
        key = pick.choice([b"a/more", *leaves, *(op.key for op in it.ops)])
        op = Op(key, pick.choice([None, cid_of(b"")]), pick.choice([leaves.get(key), *leaves.values()]))
        it.ops.insert(pick.randrange(len(it.ops) + 1), op)
        it.take(op.after)


def doubled_op(pick: Random, it: Message) -> None:
    if not it.ops:
        with_record(pick, it, made_map(pick))
    op = pick.choice(it.ops)
    it.ops.insert(pick.randrange(len(it.ops) + 1), pick.choice([op, Op(op.key, op.before, None) if op.before else op]))


def in_other_order(pick: Random, it: Message) -> None:
    pick.shuffle(it.ops)


def many_ops(pick: Random, it: Message) -> None:
    """As many operations as a message may have, or one too many."""
    record = made_map(pick)
    leaves, cid = it.leaves(), cid_of(record)
    for number in range(200 + pick.randrange(2) - len(it.ops)):
        key = b"many/%d" % number
        it.ops.append(Op(key, None, cid))
        leaves[key] = cid
    it.records[cid] = record
    it.plant(leaves)


def too_many_ops(pick: Random, it: Message) -> None:
    it.ops = [Op(b"many/%d" % number, cid_of(b""), None) for number in range(201)] + it.ops


def other_repository(pick: Random, it: Message) -> None:
    it.did = pick.choice([it.did[:-1] + b"z", b"did:web:other"])


def other_revision(pick: Random, it: Message) -> None:
    it.rev = made_rev(pick.getrandbits(60))


def bad_repo(pick: Random, it: Message) -> None:
    """The DID is none, in the commit too or not."""
    now = it.did
    made_exports.bad_did(pick, it)
    it.words = it.words._replace(did=it.did if not it.did.endswith(b"\xff") else b"did:")
    it.did = pick.choice([now, it.did])


def bad_revision(pick: Random, it: Message) -> None:
    now = it.rev
    made_exports.bad_rev(pick, it)
    it.words = it.words._replace(rev=it.rev if b"\xff" not in it.rev else b"", since=None)
    it.rev = pick.choice([now, it.rev])


def bad_since(pick: Random, it: Message) -> None:
    rev = it.words.rev
    it.words = it.words._replace(since=pick.choice([b"", rev[1:], rev + b"2", b"z" + rev[1:], rev[:-1] + b"1", rev.upper(), b"k" + rev[1:]]))


def late_since(pick: Random, it: Message) -> None:
    it.words = it.words._replace(since=pick.choice([it.words.rev, 13 * b"j"]))


def other_since(pick: Random, it: Message) -> None:
    it.words = it.words._replace(since=pick.choice([13 * b"2", None]))


def other_time(pick: Random, it: Message) -> None:
    it.words = it.words._replace(time=pick.choice([*BAD_TIMES, *GOOD_TIMES]))


def other_before(pick: Random, it: Message) -> None:
    """The message tells of another root before, or the mirror has one."""
    other = pick.choice([cid_of(b""), cid_of(it.tree.block([])), Repository().tree().root])
    if pick.randrange(2):
        it.before = other
    else:
        it.previous = other


def wrong_before(pick: Random, it: Message) -> None:
    """Message and mirror have the same other root before."""
    it.before = it.previous = pick.choice([cid_of(b""), cid_of(it.tree.block([]))])


def other_commit_link(pick: Random, it: Message) -> None:
    it.commit = pick.choice([cid_of(b""), cid_of(it.tree.block([])), *it.held])


def all_nodes(pick: Random, it: Message) -> None:
    it.is_slice = False


def no_node(pick: Random, it: Message) -> None:
    """The tree has a node, or a record in its place, that no block of the message is."""
    it.root = pick.choice([cid_of(b""), *it.records])
    it.is_slice = False


def beside(branch: Branch, at: int) -> tuple[Branch | None, Branch | None]:
    """The branches on both sides of a row."""
    return branch.rows[at - 1][2] if at else branch.left, branch.rows[at][2]


def put_beside(branch: Branch, at: int, left: Branch | None, right: Branch | None) -> None:
    branch.rows[at] = (*branch.rows[at][:2], right)
    if at:
        branch.rows[at - 1] = (*branch.rows[at - 1][:2], left)
    else:
        branch.left = left


def crossed(pick: Random, it: Message) -> None:
    """Branches beside a key that came are exchanged, or are one, so that keys don't ascend where it goes."""
    places = [(branch, at) for branch in it.tree.all() for at in range(len(branch.rows))]
    if places:
        branch, at = pick.choice([place for place in places if all(beside(*place))] or places)
        left, right = beside(branch, at)
        put_beside(branch, at, *pick.choice([(right, left), (left or right, right or left)]))
        key, value, _ = branch.rows[at]
        it.tell(Op(key, None, value))
    it.is_slice = pick.random() < 0.5


def lowest_link(pick: Random, it: Message) -> None:
    """A node of the lowest layer has a link, and a key beside it came."""
    branch = pick.choice([one for one in it.tree.all() if not one.below()])
    branch.left = Branch(None, [(b"0", cid_of(b""), None)])
    if branch.rows:
        key, value, _ = pick.choice(branch.rows)
        it.tell(Op(key, None, value))
    it.is_slice = pick.random() < 0.3


def fitted(pick: Random, it: Message) -> None:
    """Whatever the tree is, the message tells of it what undoing finds; where other messages stand before it, that can't be."""
    undoing, _ = it.undoing()
    if undoing.fault or not it.is_first:
        return
    for (key, before), value in zip(undoing.changes, undoing.values):
        it.tell(Op(key, before, value))
    it.ops = [op for op in it.ops if op.before != op.after]
    undoing, _ = it.undoing()
    it.before = it.previous = undoing.root or it.before


def whole(pick: Random, it: Message) -> None:
    pass


OF_COMMITS = [*map(of_export, [made_exports.bad_did, made_exports.bad_rev, made_exports.other_commit, made_exports.no_signature, made_exports.flipped_commit])]
OF_TREES = [
    *map(of_export, [made_exports.flipped_node, made_exports.respelled_node, made_exports.moved_rows, made_exports.other_letter, made_exports.one_node,
                     made_exports.bare_nodes, made_exports.other_links, made_exports.long_chain, made_exports.other_root, made_exports.bad_key, made_exports.no_key,
                     made_exports.other_value]),
    no_node, crossed, lowest_link,
]
OF_RECORDS = [*map(faulty_record, FAULTY), trailing, no_map, large, too_large, no_record]
OF_OPS = [changed_op, dropped_op, more_ops, doubled_op, in_other_order, many_ops, too_many_ops]
OF_WORDS = [other_repository, other_revision, bad_repo, bad_revision, bad_since, late_since, other_since, other_time, other_before, wrong_before, other_commit_link]
OF_DRAFTS: list[Callable[[Random, Message], None]] = [whole, *OF_COMMITS, *OF_RECORDS, *OF_OPS, *OF_WORDS, all_nodes, *OF_TREES, fitted]

# Ways to spoil the fields.

OTHER_KINDS = [
    b"\x00", b"\x20", b"\x41a", b"\x61a", b"\x80", b"\xa0", b"\xf4", b"\xf5", b"\xf6", b"\x81\x00", b"\x1b\x7f" + 7 * b"\xff", b"\x3b\x7f" + 7 * b"\xff", link(cid_of(b"")),
    link(b"\x01\x55" + cid_of(b"")[2:]), b"\xd8\x2a\x58\x23\0\x12\x20" + bytes(32), b"\x81" + link(cid_of(b"")), b"\x82" + link(cid_of(b"")) + b"\xf6",
]


def faulty_field(name: bytes) -> Callable[[Random, Parts], None]:
    """A field is missing, or of another kind."""
    faulty = [it for it in OTHER_KINDS if not KINDS_OF_FIELDS[name](value_in(it))]

    def spoilt(pick: Random, it: Parts) -> None:
        it.fields[name] = pick.choice([b"", *faulty])

    return spoilt


def faulty_op_field(pick: Random, it: Parts) -> None:
    """A field of an operation is missing, or of another kind, or says something else."""
    if not it.ops:
        it.ops.append(fields_of_op(Op(b"a/b", None, cid_of(b"\xa0"))))
    op, name = pick.choice(it.ops), pick.choice([b"cid", b"path", b"prev", b"action"])
    turn = pick.randrange(3)
    if turn == 0:
        op.pop(name, None)
    elif turn == 1:
        op[name] = pick.choice(OTHER_KINDS)
    elif name == b"action":
        op[name] = text(pick.choice([b"create", b"update", b"delete", b"", b"Create", b"put", b"creates"]))
    elif name == b"path":
        op[name] = text(pick.choice([b"a", b"a/", b"/b", b"a/b/c", b"a/.", b"a/..", b"a_b/c", "a/\u00e9".encode(), b"a/" + 513 * b"x", 318 * b"c" + b"/x", b""]))
    else:
        op[name] = pick.choice([op.get(b"cid", b"\xf6"), op.get(b"prev", b"\xf6")])


def faulty_op(pick: Random, it: Parts) -> None:
    """Something that isn't an operation stands among them, or one with another field."""
    it.others.append(pick.choice([*OTHER_KINDS, map_of({**fields_of_op(Op(b"a/b", None, cid_of(b"\xa0"))), b"other": b"\x00"})]))


def other_fields(pick: Random, it: Parts) -> None:
    """Fields that are passed over."""
    it.fields[pick.choice([b"a", b"op", b"prev", b"opsx", b"zzzzzzzzzzzz", b""])] = made_map(pick)
    for op in it.ops:
        op[pick.choice([b"a", b"rkey", b"zzzzzzzzzzzz"])] = made_map(pick)


def rebase(pick: Random, it: Parts) -> None:
    it.fields[b"rebase"] = b"\xf5"


def too_big(pick: Random, it: Parts) -> None:
    it.fields[b"tooBig"] = b"\xf5"


def blobs(pick: Random, it: Parts) -> None:
    it.fields[b"blobs"] = b"\x82" + link(b"\x01\x55" + cid_of(b"")[2:]) + link(cid_of(b""))


def other_number(pick: Random, it: Parts) -> None:
    it.fields[b"seq"] = head(0, pick.choice([0, 2**63 - 1, 2**63, 2**64 - 1]))


def with_bytes(size: int) -> Callable[[Random, Parts], None]:
    """The file has a block more, and so many bytes with it."""

    def spoilt(pick: Random, it: Parts) -> None:
        block = bytes(size - len(it.file) - 39)
        it.file += varint(36 + len(block)) + cid_of(block) + block

    return spoilt


def faulty_cbor(name: str) -> Callable[[Random, Parts], None]:
    def spoilt(pick: Random, it: Parts) -> None:
        it.fields[pick.choice([b"zzzzzzzzzzzz", b"zzzzzzzzzzzz", b"a"])] = pick.choice(FAULTY[name])

    return spoilt


LARGE_BLOCKS = [with_bytes(MOST_BYTES_OF_BLOCKS), with_bytes(MOST_BYTES_OF_BLOCKS + 1)]
OF_FIELDS: list[Callable[[Random, Parts], None]] = [
    *map(faulty_field, KINDS_OF_FIELDS), faulty_op_field, faulty_op_field, faulty_op, other_fields, rebase, too_big, blobs, other_number,
    *LARGE_BLOCKS, *map(faulty_cbor, FAULTY),
]

# Ways to spoil the bytes.


def other_header(pick: Random, it: bytes) -> bytes:
    body = it[len(HEADER) :]
    heads = [b"", HEADER[:-1] + b"\x20", HEADER.replace(b"commit", b"Commit"), b"\xa2\x61t\x65#sync\x62op\x01", b"\xa2\x62op\x01\x61t\x67#commit", b"\xa1\x62op\x01",
             b"\xa2\x61t\x67#commit\x62op\x18\x01", b"\xa1\x62op\x20", HEADER[: pick.randrange(len(HEADER))], HEADER + HEADER, b"\xa3" + HEADER[1:] + b"\x63opz\x01"]
    return pick.choice(heads) + body


def no_fields(pick: Random, it: bytes) -> bytes:
    return HEADER + pick.choice([b"\x80", b"\x01", b"\xf6", b"\x61a", b"\x41a", b"\xa0", link(cid_of(b""))])


def cut_off(pick: Random, it: bytes) -> bytes:
    return it[: pick.choice([len(it) - 1, len(HEADER), pick.randrange(len(it)), pick.randrange(len(it))])]


def turned(pick: Random, it: bytes) -> bytes:
    return turn_of(pick)(it)


def more_behind(pick: Random, it: bytes) -> bytes:
    return it + pick.choice([b"\0", b"\xa0", b"\xff", HEADER, HEADER + b"\xa0", pick.randbytes(5), b"\xf6\xf6", it])


def in_hexadecimal(pick: Random, it: bytes) -> bytes:
    return it.hex().encode()


def with_all_bytes(size: int) -> Callable[[Random, bytes], bytes]:
    """The message has a field more, and so many bytes with it."""

    def spoilt(pick: Random, it: bytes) -> bytes:
        name = text(13 * b"z") + b"\x5a"
        more = max(size - len(it) - len(name) - 4, 0)
        return HEADER + b"\xad" + it[len(HEADER) + 1 :] + name + more.to_bytes(4, "big") + bytes(more)

    return spoilt


LARGE_MESSAGES = [with_all_bytes(MOST_BYTES), with_all_bytes(MOST_BYTES + 1)]
OF_BYTES: list[Callable[[Random, bytes], bytes]] = [other_header, no_fields, cut_off, turned, more_behind, in_hexadecimal, *LARGE_MESSAGES]

# Streams.

KINDS: list[Callable[..., object]] = [*OF_DRAFTS, *OF_SECTIONS, *OF_PIECES, *OF_FIELDS, *OF_BYTES]
# What has some megabytes comes once.
USUAL = [it for it in [*KINDS, *OF_BYTES, turned, turned] if it not in (large, too_large, *LARGE_BLOCKS, *LARGE_MESSAGES)]


def spoilt(pick: Random, step: Step, kinds: list[Callable[..., object]], is_first: bool) -> tuple[bytes, bytes]:
    """The root before, and the message of a batch, spoilt in these ways."""
    draft = Message(pick, step)
    draft.is_first = is_first
    for spoil in (it for it in OF_DRAFTS if it in kinds):
        spoil(pick, draft)
    sections = draft.sections()
    root = sections[0][0]
    for turn in (it for it in OF_SECTIONS if it in kinds and sections):
        turn(pick, sections)
    pieces = [car_of(root, []), *(varint(len(cid) + len(block)) + cid + block for cid, block in sections)]
    for change in (it for it in OF_PIECES if it in kinds and len(pieces) > 1):
        change(pick, pieces)
    parts = Parts(draft, b"".join(pieces), root)
    for alter in (it for it in OF_FIELDS if it in kinds):
        alter(pick, parts)
    message = parts.message()
    for rewrite in (it for it in OF_BYTES if it in kinds):
        message = rewrite(pick, message)
    return draft.previous, message


class Stream(NamedTuple):
    """The word for the root before, and messages one after the other."""

    previous: bytes
    messages: list[bytes]


OTHER_WORDS: list[Callable[[bytes], bytes]] = [
    lambda word: b"", lambda word: word[:-1], lambda word: word + b"a", lambda word: b"B" + word[1:], lambda word: word.upper(), lambda word: word[:30] + b"1" + word[31:],
    lambda word: word[:-1] + b"b", lambda word: b"bafkrei" + word[7:],
]


def kinds_of(pick: Random, number: int) -> list[Callable[..., object]]:
    """In which ways a message is spoilt: in each for the first numbers, and then in up to three, or in its tree alone."""
    if number < len(KINDS):
        return [KINDS[number]]
    if pick.random() < 0.2:
        return [*pick.choices([*OF_TREES, *(3 * [crossed])], k=pick.randrange(1, 3)), fitted]
    return pick.choices(USUAL, k=pick.choice([0, 1, 1, 1, 2, 3]))


def made_stream(pick: Random, number: int) -> Stream:
    """Messages of one repository, of which one is spoilt; true ones may stand before and behind it."""
    kinds, history, before = kinds_of(pick, number), History(pick), pick.choice([0, 0, 0, 0, 1, 2])
    found = [spoilt(pick, history.step(), [], False) for _ in range(before)]
    found.append(spoilt(pick, history.step(), kinds, not before))
    found += [spoilt(pick, history.step(), [], False) for _ in range(pick.choice([0, 0, 0, 1]))]
    if number >= len(KINDS) and pick.random() < 0.05:
        # A message comes twice, or is missing, or comes too early.
        at = pick.randrange(len(found))
        found[at : at + 2] = pick.choice([[*found[at : at + 1], *found[at : at + 2]], found[at : at + 1], found[at : at + 2][::-1]])
    word = text_of(found[0][0]).encode()
    if number >= len(KINDS) and pick.random() < 0.01:
        word = pick.choice(OTHER_WORDS)(word)
    return Stream(word, [message for _, message in found])


# Batches.


class Batch:
    """A batch that is to be told: its words, and the lines before and behind the empty one."""

    def __init__(self, pick: Random) -> None:
        self.history = History(pick)
        self.is_of(self.history.step())

    def is_of(self, step: Step) -> None:
        self.words = step.words
        self.records = [key + b" " + step.old.records[cid].hex().encode() for key, cid in step.old.leaves.items()]
        self.writes = [b" ".join([it.kind, it.key, *([] if it.kind == b"delete" else [it.record.hex().encode()])]) for it in step.writes]
        self.parting = b"\n\n" if self.records else b"\n"

    def lines(self) -> bytes:
        return b"\n".join(self.records) + self.parting + b"\n".join(self.writes)


def batch_as_it_is(pick: Random, it: Batch) -> None:
    pass


def words_of(name: str, values: list[object]) -> Callable[[Random, Batch], None]:
    """A word has one of these values."""

    def spoilt(pick: Random, it: Batch) -> None:
        it.words = it.words._replace(**{name: pick.choice(values)})

    return spoilt


def batch_without_writes(pick: Random, it: Batch) -> None:
    it.writes = []
    it.parting = pick.choice([b"\n", b"\n\n", b"\n\r\n\n"])


def batch_of_puts(pick: Random, it: Batch) -> None:
    """Puts of records that are there already, which make no operations."""
    old = it.history.repository
    it.is_of(it.history.step([Write(b"put", key, old.records[cid]) for key, cid in old.leaves.items()]))


def many_puts(count: int) -> Callable[[Random, Batch], None]:
    """So many puts of small records."""

    def spoilt(pick: Random, it: Batch) -> None:
        it.is_of(it.history.step([Write(b"put", b"many/%d" % number, field(text(b"%d" % number))) for number in range(count)]))

    return spoilt


def large_puts(count: int, size: int) -> Callable[[Random, Batch], None]:
    """So many puts of records of so many bytes."""

    def spoilt(pick: Random, it: Batch) -> None:
        it.is_of(it.history.step([Write(b"put", b"many/%d" % number, long_record(size)[:-1] + bytes([number])) for number in range(count)]))

    return spoilt


def faulty_lines(pick: Random, it: Batch) -> None:
    """A line is no write, or is refused."""
    kinds = [b"a/b", b"a/b ", b" a0", b"a/b a", b"a/b a0 ", b"put a/b a0", b"put a/b", b"delete a/b", b"delete  a/b", b"delete a/none", b"update a/none a0",
             b"put a a0", b"put a/b a1", b"put a/b 80", b"a/b 01", b"merge a/b a0", b"create a/b a0", b"create a/c A0", b"update a/b a0", b"delete a/b a0"]
    lines = pick.choice([it.records, it.writes])
    for _ in range(pick.randrange(1, 3)):
        lines.insert(pick.randrange(len(lines) + 1), pick.choice(kinds))
    it.parting = pick.choice([b"\n\n", b"\r\n\r\n", b"\n\n\n"])


OTHER_SINCE = [b"x", 12 * b"2", 13 * b"z", 13 * b"A", b"k" + 12 * b"2"]
OF_BATCHES: list[Callable[[Random, Batch], None]] = [
    batch_as_it_is, words_of("did", [b"", b"did:web", b"did:web:x:", b"web:x:y"]), words_of("rev", [b"", b"x", 13 * b"z"]), words_of("rev", [13 * b"2", 13 * b"j"]),
    words_of("sig", [b"", b"0", b"0x00", b"zz", b"00 "]), words_of("sig", [b"AB", 600 * b"00"]), words_of("seq", [2**63, 2**64 - 1]), words_of("seq", [0, 2**63 - 1]),
    words_of("since", list(OTHER_SINCE)), words_of("since", [13 * b"j"]), words_of("time", list(BAD_TIMES)), words_of("time", list(GOOD_TIMES)),
    batch_without_writes, batch_of_puts, faulty_lines,
]
LARGE_BATCHES = [many_puts(200), many_puts(201), large_puts(1, MOST_BYTES_OF_RECORD), large_puts(2, MOST_BYTES_OF_RECORD + 1), large_puts(3, 700_000)]


def made_batch(pick: Random, number: int) -> Batch:
    """A batch: one spoilt in each way for the first numbers, and then in up to two ways that are picked."""
    found, every = Batch(pick), [*OF_BATCHES, *LARGE_BATCHES]
    for spoil in [every[number]] if number < len(every) else pick.choices(OF_BATCHES, k=pick.choice([0, 0, 1, 2])):
        spoil(pick, found)
    return found
