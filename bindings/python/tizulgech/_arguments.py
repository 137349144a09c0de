"""What is given to a call, as the library takes it."""
from __future__ import annotations

import operator
from typing import Any, Iterable, List, Tuple, Union

# What a record, a node and a block are given as.
Bytes = Union[bytes, bytearray, memoryview]
# What a key, a DID and a revision are given as: text is UTF-8.
Text = Union[str, Bytes]


def bytes_of(it: object) -> bytes:
    """The bytes of a record, a node or a block."""
    if isinstance(it, bytes):
        return it
    if isinstance(it, (bytearray, memoryview)):
        return bytes(it)
    raise TypeError(f"bytes are wanted, and this is {type(it).__name__}")


def text_of(it: object) -> bytes:
    """The bytes of a key, a DID or a revision."""
    return it.encode() if isinstance(it, str) else bytes_of(it)


def number_of(it: Any, end: int = 1 << 64) -> int:
    """A number below an end."""
    number = operator.index(it)
    if not 0 <= number < end:
        raise ValueError(f"{number} is not from 0 to {end - 1}")
    return number


def joined(parts: Iterable[bytes]) -> Tuple[bytes, List[int]]:
    """Parts one after another, and where each ends."""
    whole, ends = bytearray(), []
    for part in parts:
        whole += part
        ends.append(len(whole))
    return bytes(whole), ends
