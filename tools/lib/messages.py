"""A plain model of messages `#commit` of the event stream: what one says, whether that is true of the repository that had a root,
or its first fault; how a stream is cut into messages; and the message of a batch. By the definitions, and nothing of the program's
own.
"""

import base64
import json
import re
from typing import Any, NamedTuple

from lib.exports import commit_bytes, commit_in, is_did, is_own_cid, sections_of
from lib.inversions import Undoing, fault_of
from lib.model import (Ended, Fault, Reader, Repository, Write, car_of, cid_in, cid_of, data_of, fault_of_record, head, hex_of, is_cid, is_key, is_tid, link,
                       refused, text, text_of, write_of)

HEADER = head(5, 2) + text(b"t") + text(b"#commit") + text(b"op") + head(0, 1)
HEADER_OF_STATE = head(5, 2) + text(b"t") + text(b"#sync") + text(b"op") + head(0, 1)
MOST_BYTES, MOST_OPS, MOST_BYTES_OF_BLOCKS, MOST_BYTES_OF_RECORD, MOST_BYTES_OF_STATE = 5_000_000, 200, 2_000_000, 1_000_000, 10_000
# The revision of the records before a batch that `commit-event` and `sync-event` read.
FIRST_REV = b"2222222222222"

# The names of all that may be wrong with a message, without places and CIDs: of its form, of its blocks, and of what they show.
OF_CBOR = "Truncated LongHead Indefinite BadTag BadLink KeyNotText KeyOrder BadUtf8 Float Simple IntegerRange TooDeep".split()
FIELDS = "ops rev seq repo time blobs since blocks commit rebase tooBig prevData".split()
OF_FORM = ["MessageSize", "NotCommit", *(f"Cbor({it})" for it in OF_CBOR), "NotAMap", *(f"BadField({it})" for it in FIELDS)]
OF_SAID = "Rebase TooBig TooManyOps BlocksSize BadDid BadRev BadSince RevOrder BadTime".split() + ["operation: BadOp", "operation: DoubledPath", "OtherPrevious"]
OF_FILE = "Car(BadHeader) Car(BadLength) Car(Truncated) Car(BadCid) NotTheRoot Misnamed CommitMissing".split()
OF_COMMIT = "Commit(NotACommit) Commit(BadDid) Commit(BadRev) OtherDid OtherRev".split()
OF_RECORDS = [f"operation: {it}" for it in ("RecordMissing", "RecordSize", *(f"BadRecord({it})" for it in (*OF_CBOR, "Trailing")), "NotAMap")]
OF_CHANGES = ["BlockMissing", "BadNode", "TooDeep", "NotTree", "operation: OtherValue", "OtherRoot"]
NAMES = [*OF_FORM, *OF_SAID, *OF_FILE, *OF_COMMIT, *OF_RECORDS, *OF_CHANGES]
# And why no message tells of a batch.
UNTOLD = ["BadDid", "BadRev", "BadSig", "NoBatch", "BadSeq", "BadSince", "RevOrder", "BadTime", "TooManyOps", "operation: RecordSize", "BlocksSize"]


class Op(NamedTuple):
    """A key, and the CID of its record before and after."""

    key: bytes
    before: bytes | None
    after: bytes | None


class Event(NamedTuple):
    """What a message says."""

    seq: int
    did: bytes
    commit: bytes
    rev: bytes
    since: bytes | None
    blocks: bytes
    ops: list[Op]
    time: bytes
    before: bytes


class Checked(NamedTuple):
    """A message that is true: what it says, the root after it, and its blocks."""

    event: Event
    root: bytes
    blocks: dict[bytes, bytes]


def name_of(fault: str) -> str:
    """The name of a fault without the places and the CID in it."""
    return re.sub(r"^(BlockMissing|BadNode)\(.*\)$", r"\1", re.sub(r"^operation \d+", "operation", re.sub(r"^(message|line) \d+: ", "", fault)))


def action_of(before: bytes | None, after: bytes | None) -> bytes | None:
    if before == after:
        return None
    return b"create" if before is None else b"delete" if after is None else b"update"


# Values of DAG-CBOR.


class Text(bytes):
    """A text's bytes."""


class Link(bytes):
    """A link's CID."""


def value_in(data: bytes) -> Any:
    """The value that these bytes are, with maps as dictionaries; their first fault else."""
    seen = Reader(data)
    seen.value(1)
    if seen.at < len(data):
        raise Fault("Trailing")
    return next_value(Reader(data))


def next_value(it: Reader) -> Any:
    major, number = it.head()
    if major in (0, 1):
        return -1 - number if major else number
    if major == 2:
        return it.take(number)
    if major == 3:
        return Text(it.take(number))
    if major == 4:
        return [next_value(it) for _ in range(number)]
    if major == 5:
        return {bytes(next_value(it)): next_value(it) for _ in range(number)}
    return Link(next_value(it)[1:]) if major == 6 else {20: False, 21: True, 22: None}[number]


def has_json(it: Any) -> bool:
    if isinstance(it, dict):
        return all(key not in (b"$link", b"$bytes") and has_json(value) for key, value in it.items())
    if isinstance(it, list):
        return all(map(has_json, it))
    return it[:1] == b"\x01" if isinstance(it, Link) else type(it) is not int or abs(it) < 2**53


def tree_of(it: Any) -> Any:
    if isinstance(it, dict):
        return {key.decode(): tree_of(value) for key, value in it.items()}
    if isinstance(it, list):
        return [*map(tree_of, it)]
    if isinstance(it, Link):
        return {"$link": text_of(it)}
    if isinstance(it, Text):
        return it.decode()
    return {"$bytes": base64.b64encode(it).decode().rstrip("=")} if isinstance(it, bytes) else it


def word_of(record: bytes) -> bytes:
    """A record as JSON, or in hexadecimal where it has none."""
    value = value_in(record)
    return json.dumps(tree_of(value), ensure_ascii=False, separators=(",", ":")).encode() if has_json(value) else record.hex().encode()


# What the bytes of a message say.


def is_own(it: Any) -> bool:
    return type(it) is Link and is_own_cid(it)


def op_in(it: Any) -> Op | None:
    """The operation that a value is, if it is one."""
    if type(it) is not dict or type(it.get(b"action")) is not Text or type(it.get(b"path")) is not Text or b"cid" not in it:
        return None
    key, before, after = it[b"path"], it.get(b"prev"), it[b"cid"]
    if not is_own(after) and after is not None or b"prev" in it and not is_own(before):
        return None
    return Op(key, before, after) if is_key(key) and action_of(before, after) == it[b"action"] else None


def is_time(time: bytes) -> bool:
    return len(time) <= 64 and bool(re.fullmatch(rb"\d{4}-\d\d-\d\dT\d\d:\d\d:\d\d(\.\d+)?(Z|[+-]\d\d:\d\d)", time))


def fault_of_since(since: bytes | None, rev: bytes) -> str | None:
    if since is None:
        return None
    return "BadSince" if not is_tid(since) else None if since < rev else "RevOrder"


# What each field is, in the order in which they are looked at.
KINDS_OF_FIELDS = {
    b"ops": lambda it: type(it) is list, b"rev": lambda it: type(it) is Text, b"seq": lambda it: type(it) is int and it >= 0, b"repo": lambda it: type(it) is Text,
    b"time": lambda it: type(it) is Text, b"blobs": lambda it: type(it) is list and all(type(one) is Link for one in it),
    b"since": lambda it: it is None or type(it) is Text, b"blocks": lambda it: type(it) is bytes, b"commit": is_own,
    b"rebase": lambda it: type(it) is bool, b"tooBig": lambda it: type(it) is bool, b"prevData": is_own,
}


def event_in(message: bytes) -> Event:
    """What the bytes of a message say; the first fault of their form else."""
    if len(message) > MOST_BYTES:
        raise Fault("MessageSize")
    if not message.startswith(HEADER):
        raise Fault("NotCommit")
    try:
        it = value_in(message[len(HEADER) :])
    except Fault as fault:
        raise Fault(f"Cbor({fault})") from None
    if type(it) is not dict:
        raise Fault("NotAMap")
    for name, is_kind in KINDS_OF_FIELDS.items():
        if name not in it or not is_kind(it[name]):
            raise Fault(f"BadField({name.decode()})")
    since = fault_of_since(it[b"since"], it[b"rev"])
    tests = [
        (it[b"rebase"], "Rebase"), (it[b"tooBig"], "TooBig"), (len(it[b"ops"]) > MOST_OPS, "TooManyOps"), (len(it[b"blocks"]) > MOST_BYTES_OF_BLOCKS, "BlocksSize"),
        (not is_did(it[b"repo"]), "BadDid"), (not is_tid(it[b"rev"]), "BadRev"), (since, since), (not is_time(it[b"time"]), "BadTime"),
    ]
    for is_so, name in tests:
        if is_so:
            raise Fault(name)
    ops = []
    for place, value in enumerate(it[b"ops"]):
        op = op_in(value)
        if not op:
            raise Fault(f"operation {place}: BadOp")
        ops.append(op)
    return Event(it[b"seq"], it[b"repo"], it[b"commit"], it[b"rev"], it[b"since"], it[b"blocks"], ops, it[b"time"], it[b"prevData"])


# Whether it is true.


def fault_at(blocks: dict[bytes, bytes], cid: bytes) -> str | None:
    """What is wrong with the record that an operation leaves."""
    if cid not in blocks:
        return "RecordMissing"
    return "RecordSize" if len(blocks[cid]) > MOST_BYTES_OF_RECORD else fault_of_record(blocks[cid])


def checked(previous: bytes, message: bytes) -> Checked:
    """What a message says that is true of the repository that had this root; its first fault else."""
    event = event_in(message)
    keys = [op.key for op in event.ops]
    for place, key in enumerate(keys):
        if key in keys[:place]:
            raise Fault(f"operation {place}: DoubledPath")
    if event.before != previous:
        raise Fault("OtherPrevious")
    root, sections = sections_of(event.blocks)
    blocks = {cid_of(block): block for _, block in sections}
    tests = [(root != event.commit, "NotTheRoot"), (any(cid_of(block) != cid for cid, block in sections), "Misnamed"), (event.commit not in blocks, "CommitMissing")]
    for is_so, name in tests:
        if is_so:
            raise Fault(name)
    did, rev, _, after, _ = commit_in(blocks[event.commit])
    if did != event.did:
        raise Fault("OtherDid")
    if rev != event.rev:
        raise Fault("OtherRev")
    for place, op in enumerate(event.ops):
        fault = fault_at(blocks, op.after) if op.after else None
        if fault:
            raise Fault(f"operation {place}: {fault}")
    found = fault_of(blocks, previous, after, sorted(event.ops))
    if found:
        name, place = found
        raise Fault(name if place < 0 else f"operation {keys.index(sorted(keys)[place])}: {name}")
    return Checked(event, after, blocks)


# Streams of messages.


def cut(stream: bytes) -> tuple[bytes, bytes]:
    """The first message of a stream, which has two items, and what is behind it: all is one message where they don't end."""
    it, items = Reader(stream), 2
    try:
        while items:
            major, number = it.head()
            if major in (2, 3):
                it.take(number)
            items += {4: number, 5: 2 * number, 6: 1}.get(major, 0) - 1
            if items > len(stream) - it.at:
                return stream, b""
    except Fault:
        return stream, b""
    return stream[: it.at], stream[it.at :]


def told(found: Checked, with_ops: bool) -> bytes:
    """What is told of a message that is true."""
    event = found.event
    lines = [b"%s %s %s %d" % (event.did, event.rev, text_of(found.root).encode(), len(event.ops))]
    for op in event.ops if with_ops else []:
        record = [word_of(found.blocks[op.after])] if op.after else []
        lines.append(b" ".join([action_of(op.before, op.after) or b"", op.key, *record]))
    return b"".join(line + b"\n" for line in lines)


def judged(previous: bytes, stream: bytes, with_ops: bool = False) -> tuple[Ended, list[str]]:
    """What `check-event` writes of a stream, and the name of the fault of each message that was looked at, or none."""
    out, seen = b"", list[str]()
    while stream:
        message, stream = cut(stream)
        try:
            found = checked(previous, message)
        except Fault as fault:
            return refused(f"message {len(seen) + 1}: {fault}"), [*seen, name_of(str(fault))]
        seen.append("none")
        out += told(found, with_ops)
        previous = found.root
    return Ended(0, out, b""), seen


def fault_of_word(word: bytes) -> str | None:
    """What is wrong with the text of a CID."""
    if len(word) != 59:
        return "BadLength"
    if word[:1] != b"b":
        return "BadPrefix"
    if not re.fullmatch(rb"[a-z2-7]{58}", word[1:]):
        return "BadLetter"
    if (b"abcdefghijklmnopqrstuvwxyz234567".index(word[58:])) % 4:
        return "BadBits"
    return None if is_own_cid(cid_in(word.decode())) else "NotThisProfile"


def check_event(word: bytes, stream: bytes, with_ops: bool = False) -> Ended:
    fault = fault_of_word(word)
    return refused(fault) if fault else judged(cid_in(word.decode()), stream, with_ops)[0]


# The message of a batch.


class Words(NamedTuple):
    """What a message tells beside a batch; the signature is in hexadecimal."""

    did: bytes
    rev: bytes
    since: bytes | None
    seq: int
    time: bytes
    sig: bytes

    def given(self) -> list[str]:
        """As words of a command line."""
        since = ["--since", self.since.decode()] if self.since is not None else []
        return [*since, "--seq", str(self.seq), "--time", self.time.decode(), "--sig", self.sig.decode(), self.did.decode(), self.rev.decode()]


def fields_of_op(op: Op) -> dict[bytes, bytes]:
    """The fields of an operation, each as its bytes."""
    prev = {b"prev": link(op.before)} if op.before else {}
    return {b"cid": link(op.after), b"path": text(op.key), **prev, b"action": text(action_of(op.before, op.after) or b"")}


def map_of(fields: dict[bytes, bytes]) -> bytes:
    """A map of fields, of each of which the bytes are given."""
    return head(5, len(fields)) + b"".join(text(name) + fields[name] for name in sorted(fields, key=lambda it: (len(it), it)))


def fields_of_event(event: Event) -> dict[bytes, bytes]:
    """The fields of a message but for its operations, each as its bytes."""
    return {
        b"rev": text(event.rev), b"seq": head(0, event.seq), b"repo": text(event.did), b"time": text(event.time), b"blobs": b"\x80",
        b"since": b"\xf6" if event.since is None else text(event.since), b"blocks": data_of(event.blocks), b"commit": link(event.commit),
        b"rebase": b"\xf4", b"tooBig": b"\xf4", b"prevData": link(event.before),
    }


def message_of(fields: dict[bytes, bytes], ops: list[bytes]) -> bytes:
    return HEADER + map_of({**fields, b"ops": head(4, len(ops)) + b"".join(ops)})


def ops_between(old: Repository, new: Repository) -> list[Op]:
    """What changed, in the order of the keys."""
    keys = sorted({*old.leaves, *new.leaves})
    return [Op(key, old.leaves.get(key), new.leaves.get(key)) for key in keys if old.leaves.get(key) != new.leaves.get(key)]


def written(words: Words, old: Repository, new: Repository) -> bytes:
    """The message of the batch that made the new repository of the old one; why there is none else."""
    since, ops = fault_of_since(words.since, words.rev), ops_between(old, new)
    for is_so, name in [(words.seq >= 2**63, "BadSeq"), (since, since), (not is_time(words.time), "BadTime"), (len(ops) > MOST_OPS, "TooManyOps")]:
        if is_so:
            raise Fault(str(name))
    records = [new.records[op.after] if op.after else b"" for op in ops]
    for place, record in enumerate(records):
        if len(record) > MOST_BYTES_OF_RECORD:
            raise Fault(f"operation {place}: RecordSize")
    tree = new.tree()
    nodes = Undoing({cid_of(block): block for block in tree.order}, [(op.key, op.before) for op in ops], tree.root).read
    commit = commit_bytes(words.did, words.rev, bytes.fromhex(words.sig.decode()), tree.root, None)
    file = car_of(cid_of(commit), [commit, *nodes, *(record for op, record in zip(ops, records) if op.after)])
    if len(file) > MOST_BYTES_OF_BLOCKS:
        raise Fault("BlocksSize")
    event = Event(words.seq, words.did, cid_of(commit), words.rev, words.since, file, ops, words.time, old.tree().root)
    return message_of(fields_of_event(event), [map_of(fields_of_op(op)) for op in ops])


def written_of_state(words: Words, it: Repository) -> bytes:
    """The message of a repository as it is; why there is none else."""
    for is_so, name in [(words.seq >= 2**63, "BadSeq"), (not is_time(words.time), "BadTime")]:
        if is_so:
            raise Fault(name)
    commit = commit_bytes(words.did, words.rev, bytes.fromhex(words.sig.decode()), it.tree().root, None)
    file = car_of(cid_of(commit), [commit])
    if len(file) > MOST_BYTES_OF_STATE:
        raise Fault("BlocksSize")
    fields = {b"seq": head(0, words.seq), b"did": text(words.did), b"rev": text(words.rev), b"time": text(words.time), b"blocks": data_of(file)}
    return HEADER_OF_STATE + map_of(fields)


def line_in(line: bytes, is_behind: bool) -> Write | None:
    """The write of a line before the first empty one, or behind it."""
    if is_behind:
        return write_of(line.split(b" ")) if all(line.split(b" ")) else None
    key, _, digits = line.partition(b" ")
    record = hex_of(digits)
    return None if record is None or not key else Write(b"put", key, record)


def applied(it: Repository, rev: bytes, writes: list[tuple[int, Write | None]]) -> str | None:
    """Applies the writes of numbered lines as one batch, or names the first line at fault, of which the last may be none."""
    batch = [write for _, write in writes if write]
    found = it.apply(b"", rev, batch) if batch else None
    if found:
        return f"line {writes[found[0]][0]}: {found[1]}"
    return next((f"line {number}: BadLine" for number, write in writes if not write), None)


def event(words: Words, data: bytes, is_of_state: bool) -> Ended:
    """What `commit-event` writes for lines of records and the batch behind them, or `sync-event`."""
    for is_so, name in [(not is_did(words.did), "BadDid"), (not is_tid(words.rev), "BadRev"), (hex_of(words.sig) is None, "BadSig")]:
        if is_so:
            return refused(name)
    parts: list[list[tuple[int, Write | None]]] = [[], []]
    is_behind = False
    lines = data.split(b"\n")
    for number, line in enumerate(lines if lines[-1] else lines[:-1], 1):
        line = line.removesuffix(b"\r")
        if not line:
            is_behind = True
            continue
        write = line_in(line, is_behind)
        parts[is_behind].append((number, write))
        if not write:
            break
    before, batch = [[write for _, write in part if write] for part in parts]
    if before and batch and words.rev == FIRST_REV:
        return refused("RevOrder")
    old, new, rev = Repository(), Repository(), FIRST_REV if batch else words.rev
    for it, given, part in ((old, rev, parts[0]), (new, rev, parts[0]), (new, words.rev, parts[1])):
        fault = applied(it, given, part)
        if fault:
            return refused(fault)
    if not batch and not (is_of_state and before):
        return refused("NoBatch")
    try:
        return Ended(0, written_of_state(words, new) if is_of_state else written(words, old, new), b"")
    except Fault as fault:
        return refused(str(fault))


def commit_event(words: Words, data: bytes) -> Ended:
    """What `commit-event` writes for lines of records and the batch behind them."""
    return event(words, data, False)


def sync_event(words: Words, data: bytes) -> Ended:
    """What `sync-event` writes for the same lines."""
    return event(words._replace(since=None), data, True)
