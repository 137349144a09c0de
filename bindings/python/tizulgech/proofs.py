"""Proofs of single keys."""
from __future__ import annotations

from typing import Iterable, Optional

from . import _library
from ._arguments import Bytes, Text, bytes_of, joined, text_of
from .cids import Cid, cid_of
from .faults import FAULTS_OF_TREES, Fault


def verify(root: Cid, proof: Iterable[Bytes], key: Text) -> Optional[Cid]:
    """What the tree with this root has under a key, as the nodes of a proof show: its value's CID, or None where it has none.

    A proof that shows neither raises a `Fault`: MISSING, a node of the path isn't there; BAD_NODE, one is no node; TOO_MANY_NODES, the path is
    longer than any tree is deep; BAD_KEY, no tree has the key.
    """
    value = _library.room()
    blocks, ends = joined(map(bytes_of, proof))
    number = _library.call("verify", blocks=blocks, ends=ends, root=cid_of(root), key=text_of(key), value=value)
    if number not in (0, 24):
        raise Fault(number, names=FAULTS_OF_TREES)
    return Cid(value.raw) if number == 0 else None
