"""Files as servers export them."""
from __future__ import annotations

from dataclasses import dataclass

from . import _library
from ._answers import Reader
from ._arguments import Bytes, bytes_of
from .cids import Cid
from .faults import Fault


@dataclass(frozen=True)
class Export:
    """Of which repository a file is the export: the CID of its signed commit, the root of its tree, how many records it has, its DID and its revision."""

    commit: Cid
    root: Cid
    count: int
    did: str
    rev: str


def check_car(file: Bytes) -> Export:
    """Of which repository a CAR file is the export, as com.atproto.sync.getRepo serves it. Nothing of it is trusted: each block is hashed, and the tree is
    built anew of the records. No signature is tested.

    Another file raises its first fault: of its form CAR_HEADER, CAR_LENGTH, CAR_TRUNCATED, CAR_CID, MISNAMED; of its commit COMMIT_MISSING,
    NOT_A_COMMIT, COMMIT_DID, COMMIT_REV; NOT_THE_TREE; and of a record, whose place among the records the fault has, BAD_KEY, RECORD_MISSING, RECORD_SIZE, TRUNCATED to
    TRAILING, NOT_A_MAP.
    """
    place = _library.size()
    try:
        reader = Reader(_library.filled("check_car", file=bytes_of(file), place=place))
    except Fault as fault:
        raise Fault(fault.number, place.value) from None
    return Export(reader.cid(), reader.cid(), reader.number(), reader.part().decode(), reader.part().decode())
