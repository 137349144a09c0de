"""Nodes of trees, which a host has by their CIDs."""
from __future__ import annotations

from dataclasses import dataclass, field
from typing import Callable, List, Optional, Tuple

from . import _library
from ._answers import Reader
from ._arguments import Bytes, bytes_of
from .cids import Cid
from .faults import FAULTS_OF_TREES, Fault

# The bytes of the one node of an empty tree.
EMPTY_NODE = b"\xa2ae\x80al\xf6"

# What gives a node by its CID, or None where there is none.
Nodes = Callable[[Cid], Optional[Bytes]]


class Missing(Fault):
    """A node that is needed isn't there: `cid` is its CID."""

    cid: Cid

    def __init__(self, cid: Cid) -> None:
        super().__init__(2, names=FAULTS_OF_TREES, sentence=f"there is no node {cid}")
        self.cid = cid


class BadNode(Fault):
    """What is given for a CID is no node, or not the one of this CID: `cid` is the CID."""

    cid: Cid

    def __init__(self, cid: Cid) -> None:
        super().__init__(30, sentence=f"what is given for {cid} is no node of this CID")
        self.cid = cid


def links(node: Bytes) -> List[Tuple[bool, Cid]]:
    """What stands below a node, in the order of a CAR file: of each whether it is a node, and not a record, and its CID. A block that is no node
    raises a `Fault`, BAD_NODE."""
    found = _library.filled("links", node=bytes_of(node))
    return [(found[at] == 1, Cid(found[at + 1 : at + 37])) for at in range(0, len(found), 37)]


@dataclass(frozen=True)
class Entries:
    """The pairs and the links of a node, from the front: `left` is the link before the first key, and each pair is a key, its record's CID, and the
    link behind it; a link is None where there is none."""

    left: Optional[Cid] = None
    pairs: List[Tuple[bytes, Cid, Optional[Cid]]] = field(default_factory=list)


def node_entries(node: Bytes) -> Entries:
    """The pairs and the links of a node. A block that is no node raises a `Fault`, BAD_NODE."""
    own = bytes_of(node)
    reader = Reader(_library.filled("node_entries", 64 + 2 * len(own), node=own))
    left, pairs = reader.value(), []
    while reader:
        pairs.append((reader.part(), reader.cid(), reader.value()))
    return Entries(left, pairs)


def node_of(nodes: Nodes, cid: Cid) -> bytes:
    """The node that a host has for a CID."""
    node = nodes(cid)
    if node is None:
        raise Missing(cid)
    return bytes_of(node)
