"""Messages #commit of the event stream (AT Protocol, sync 1.1)."""
from __future__ import annotations

from dataclasses import dataclass
from typing import List, Optional, Tuple

from . import _library
from ._answers import Reader
from ._arguments import Bytes, bytes_of
from .cids import Cid, cid_of
from .commits import SignedCommit, commit_in
from .faults import Fault

# A key, and the CIDs of its record before and after a batch, or None where there is none.
Operation = Tuple[bytes, Optional[Cid], Optional[Cid]]


@dataclass(frozen=True)
class Preview:
    """What the writes of a batch will make of a repository: the roots before and after it, the bytes of its unsigned commit, which are signed, and
    what each key that it writes has and will have, in the order of the keys."""

    previous: Cid
    root: Cid
    unsigned: bytes
    changes: List[Operation]


@dataclass(frozen=True)
class CheckedCommit:
    """What a message says that is true of a repository that had the root before.

    `commit` is its signed commit, whose root is that after the batch, and `cid` is that of its block; `seq` is the number in the stream, `since` the
    revision of the batch before, if there was one, and `time` when it was sent; `operations` are what each key had and has, in the order of the
    message; `blocks` are its blocks with their CIDs: the commit, nodes of the tree after the batch, and the records that come.
    """

    commit: SignedCommit
    seq: int
    cid: Cid
    since: Optional[str]
    time: str
    operations: List[Operation]
    blocks: List[Tuple[Cid, bytes]]


class BadMessage(Fault):
    """A message isn't true of the repository: `number` and `name` say why, `place` is that of an operation, or of a field in the order of DAG-CBOR,
    or with MESSAGE_CBOR the number of its fault; `cid` is that of a node that is missing, or none."""

    cid: Optional[Cid]

    def __init__(self, number: int, place: int, cid: Optional[Cid]) -> None:
        super().__init__(number, place)
        self.cid = cid


def check_commit(previous: Cid, message: Bytes) -> CheckedCommit:
    """What a message says, where it is true of the repository whose tree had the root `previous`; else a `BadMessage` says why not.

    What is taken is true of whatever records have the root after: each key of the operations has the record that it tells, and the records with
    each operation undone have the root before. Who may sign, and whether the commit is signed, is for the caller to see, by `commit.unsigned`
    and `commit.sig`.
    """
    own, place, missing = bytes_of(message), _library.size(), _library.room()
    try:
        found = _library.filled("check_commit", first=2 * len(own) + 512, previous=cid_of(previous), message=own, place=place, missing=missing)
    except Fault as fault:
        has_node = fault.number in (30, 129)
        raise BadMessage(fault.number, place.value, Cid(missing.raw) if has_node else None) from None
    reader = Reader(found)
    commit, seq, cid = commit_in(reader), reader.number(), reader.cid()
    since, time, operations = reader.part().decode() or None, reader.part().decode(), operations_in(reader)
    blocks = []
    while reader:
        blocks.append((reader.cid(), reader.part()))
    return CheckedCommit(commit, seq, cid, since, time, operations, blocks)


def operations_in(reader: Reader) -> List[Operation]:
    """The changes of an answer, of which it says how many they are."""
    return [(reader.part(), reader.value(), reader.value()) for _ in range(reader.number())]


def preview_in(reader: Reader) -> Preview:
    """That of an answer."""
    return Preview(reader.cid(), reader.cid(), reader.part(), operations_in(reader))
