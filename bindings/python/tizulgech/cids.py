"""CIDs: the names of blocks."""
from __future__ import annotations

import ctypes
from dataclasses import dataclass
from typing import List, Optional, Sequence

from . import _library
from ._arguments import Bytes, Text, bytes_of, joined, text_of
from .faults import BadCid


@dataclass(frozen=True, order=True)
class Cid:
    """A CID as the AT Protocol has it for blocks: CIDv1, DAG-CBOR, SHA-256.

    `bytes` are its 36 bytes, by which it is compared and ordered; `str` gives its text of 59 letters. Other bytes raise a `BadCid`.
    """

    bytes: bytes

    def __post_init__(self) -> None:
        own = bytes_of(self.bytes)
        if len(own) != 36 or own[:4] != b"\x01\x71\x12\x20":
            raise BadCid(5, "these bytes are")
        object.__setattr__(self, "bytes", own)

    @staticmethod
    def of(block: Bytes) -> Cid:
        """That of a block."""
        out = _library.room()
        _library.call("cid", block=bytes_of(block), out=out)
        return Cid(out.raw)

    @staticmethod
    def of_each(blocks: Sequence[Bytes]) -> List[Cid]:
        """Those of many blocks, in their order: several are hashed side by side."""
        whole, ends = joined(map(bytes_of, blocks))
        found = _library.filled("cids", first=36 * len(ends), blocks=whole, ends=ends)
        return [Cid(found[at : at + 36]) for at in range(0, len(found), 36)]

    @staticmethod
    def parse(text: Text) -> Cid:
        """The one with this text; a `BadCid` says why there is none."""
        out = _library.room()
        number = _library.call("cid_from_text", text=text_of(text), out=out)
        if number:
            raise BadCid(number, f"{text!r} is")
        return Cid(out.raw)

    def __str__(self) -> str:
        out = ctypes.create_string_buffer(59)
        _library.call("cid_text", cid=self.bytes, out=out)
        return out.raw.decode()


def cid_of(it: object) -> bytes:
    """The bytes of a CID that is given to a call."""
    if isinstance(it, Cid):
        return it.bytes
    raise TypeError(f"a Cid is wanted, and this is {type(it).__name__}")


def value_of(it: Optional[object]) -> bytes:
    """Those of a value: 36 zeros where there is none."""
    return bytes(36) if it is None else cid_of(it)
