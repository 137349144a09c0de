"""Writes of a batch, and their tests."""
from __future__ import annotations

from dataclasses import dataclass
from typing import Tuple

from . import _library
from ._arguments import Bytes, Text, bytes_of, number_of, text_of
from .faults import Fault


@dataclass(frozen=True)
class Write:
    """A write: one of `Put`, `Create`, `Update` and `Delete` makes it.

    `kind` is 0 to 3 in this order, `key` is that of the record, and `record` is its DAG-CBOR. Whether a repository takes it is only said by
    `check_write`, and by `Repository.apply`.
    """

    kind: int
    key: Text
    record: Bytes = b""

    def __post_init__(self) -> None:
        number_of(self.kind, 4)
        text_of(self.key)
        object.__setattr__(self, "record", bytes_of(self.record))


def Put(key: Text, record: Bytes) -> Write:
    """The record stands under the key, whatever stood there."""
    return Write(0, key, record)


def Create(key: Text, record: Bytes) -> Write:
    """The record stands under the key, where nothing stood there."""
    return Write(1, key, record)


def Update(key: Text, record: Bytes) -> Write:
    """The record stands under the key, where another one stood there."""
    return Write(2, key, record)


def Delete(key: Text) -> Write:
    """The key goes with its record."""
    return Write(3, key)


def check_write(write: Write, there: bool) -> None:
    """Raises the fault of a write, by whether there is a record under its key: BAD_KEY; RECORD_SIZE, NOT_A_MAP or a fault of DAG-CBOR; KEY_EXISTS
    for a create of a key that is there, NONE for an update or a delete of one that isn't."""
    kind, key, record = write_of(write)
    number = _library.call("write_fault", kind=kind, there=bool(there), key=key, record=record)
    if number:
        raise Fault(number)


def record_fault(block: Bytes) -> int:
    """0 where the bytes are one value in DAG-CBOR, else the number of the first fault, whose name and sentence are in `FAULTS`."""
    return _library.call("record_fault", bytes=bytes_of(block))


def check_record(block: Bytes) -> None:
    """Raises the first fault of bytes that are to be one value in DAG-CBOR: TRUNCATED to TRAILING."""
    number = record_fault(block)
    if number:
        raise Fault(number)


def write_of(write: object) -> Tuple[int, bytes, bytes]:
    """A write as the library takes it."""
    if isinstance(write, Write):
        return write.kind, text_of(write.key), bytes_of(write.record)
    raise TypeError(f"a Write is wanted, and this is {type(write).__name__}")
