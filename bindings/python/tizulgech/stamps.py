"""Stamps of batches: a DID and a revision, and the commit that a host signs."""
from __future__ import annotations

from typing import Optional

from . import _library
from ._arguments import Text, number_of, text_of
from .cids import Cid, cid_of
from .faults import Fault


def is_did(did: Text) -> bool:
    """Whether a stamp may have this DID."""
    return bool(_library.call("is_did", did=text_of(did)))


def is_tid(rev: Text) -> bool:
    """Whether a stamp may have this revision: a timestamp identifier."""
    return bool(_library.call("is_tid", rev=text_of(rev)))


def check_stamp(before: Text, did: Text, rev: Text) -> None:
    """Raises the fault of a stamp after the revision of the batch before, which is "" where there was none: BAD_DID, BAD_REV or REV_ORDER."""
    number = _library.call("stamp_fault", before=text_of(before), did=text_of(did), rev=text_of(rev))
    if number:
        raise Fault(number)


def next_tid(last: Optional[Text], micros: int, clock: int = 0) -> str:
    """The timestamp identifier after the last one, or after none, at so many microseconds since 1970 by the clock of a number from 0 to 1,023.

    Where this time isn't after the last one, as where a clock has gone back, it is that of the microsecond behind the last one's: so it is always
    after the last one. A `Fault` says why there is none: BAD_REV, the last one is no timestamp identifier; REV_ORDER, none is after it; BAD, a number
    is out of its range.
    """
    given = {"last": text_of(last or b""), "micros": number_of(micros), "clock": number_of(clock)}
    return _library.filled("next_tid", first=13, **given).decode()


def commit_bytes(did: Text, rev: Text, root: Cid) -> bytes:
    """The bytes of the unsigned commit of a stamp, which isn't tested, over the root of a tree: what a host signs."""
    return _library.filled("commit_bytes", did=text_of(did), rev=text_of(rev), root=cid_of(root))
