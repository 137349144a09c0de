"""What the library wrote, read part by part."""
from __future__ import annotations

from typing import List, Optional, Tuple

from .cids import Cid


class Reader:
    """Reads an answer; it is true while there is more."""

    def __init__(self, answer: bytes) -> None:
        self.answer, self.at = answer, 0

    def __bool__(self) -> bool:
        return self.at < len(self.answer)

    def take(self, count: int) -> bytes:
        self.at += count
        return self.answer[self.at - count : self.at]

    def number(self) -> int:
        return int.from_bytes(self.take(8), "little")

    def part(self) -> bytes:
        return self.take(self.number())

    def cid(self) -> Cid:
        return Cid(self.take(36))

    def value(self) -> Optional[Cid]:
        found = self.take(36)
        return Cid(found) if any(found) else None

    def parts(self) -> List[bytes]:
        """All that is left."""
        found = []
        while self:
            found.append(self.part())
        return found

    def pairs(self) -> List[Tuple[bytes, Cid]]:
        """All that is left, of which each is a key and a CID."""
        found = []
        while self:
            found.append((self.part(), self.cid()))
        return found
