"""Trees whose nodes a host keeps."""
from __future__ import annotations

from dataclasses import dataclass, field
from typing import Dict, List, Mapping, Optional, Sequence, Tuple

from . import _library
from ._answers import Reader
from ._arguments import Text, joined, number_of, text_of
from .changes import Change, ChangeProof, Key, changes_of, ordered, proof_of
from .cids import Cid, cid_of
from .faults import FAULTS_OF_TREES, Fault
from .nodes import BadNode, Entries, Missing, Nodes, node_entries, node_of

# No tree has more layers.
MOST_NODES = 129


@dataclass(frozen=True)
class Edit:
    """What changes do to the set of a tree's nodes.

    `root` is the root after them; `add` is to be inserted, of each node its CID and its bytes; the nodes `drop` are to be removed; `previous` is the
    value that each key had, in the order of the keys.
    """

    root: Cid
    add: List[Tuple[Cid, bytes]] = field(default_factory=list)
    drop: List[Cid] = field(default_factory=list)
    previous: List[Optional[Cid]] = field(default_factory=list)


@dataclass(frozen=True)
class Difference:
    """What makes one tree of another: `changes`, of each key that differs what it has before and after, in the order of the keys; `add`, the nodes to
    insert, of each its CID and its bytes; `drop`, the CIDs of those to remove."""

    changes: List[Tuple[bytes, Optional[Cid], Optional[Cid]]] = field(default_factory=list)
    add: List[Tuple[Cid, bytes]] = field(default_factory=list)
    drop: List[Cid] = field(default_factory=list)


def tree_path(nodes: Nodes, root: Cid, key: Text) -> Tuple[List[bytes], Optional[Cid]]:
    """The nodes from a root down to a key, which prove what the tree has under it, and its value. No node is hashed. `Missing` and `BadNode` name
    the node that isn't there, or is none."""
    cid_of(root)
    own, cid, out = text_of(key), root, _library.room()
    path: List[bytes] = []
    while len(path) < MOST_NODES:
        path.append(node_of(nodes, cid))
        number = _library.call("step", node=path[-1], key=own, out=out)
        if number == 30:
            raise BadNode(cid)
        if number != 1:
            return path, Cid(out.raw) if number == 0 else None
        cid = Cid(out.raw)
    raise Fault(31)


def tree_get(nodes: Nodes, root: Cid, key: Text) -> Optional[Cid]:
    """The value of a key, or None. No node is hashed; the faults are those of `tree_path`."""
    return tree_path(nodes, root, key)[1]


def tree_list(nodes: Nodes, root: Cid, start: Text = b"", most: int = 256) -> List[Tuple[bytes, Cid]]:
    """The first keys from one on, so many at most, each with its record's CID. No node is hashed; the faults are those of `tree_path`. The next ones
    begin at the last key with a zero byte behind it."""
    cid_of(root)
    begin, count = text_of(start), number_of(most)
    found: List[Tuple[bytes, Cid]] = []
    # What is left, the next last: a pair, or a node by its CID with how many layers it may have.
    left: List[Tuple[Optional[bytes], Cid, int]] = [(None, root, MOST_NODES)]
    while left and len(found) < count:
        key, cid, layers = left.pop()
        if key is not None:
            found.append((key, cid))
            continue
        if not layers:
            raise Fault(31)
        entries = _entries_of(cid, node_of(nodes, cid))
        passed = sum(own < begin for own, _, _ in entries.pairs)
        before = entries.pairs[passed - 1][2] if passed else entries.left
        for own, value, link in reversed(entries.pairs[passed:]):
            left += ([(None, link, layers - 1)] if link else []) + [(own, value, 0)]
        left += [(None, before, layers - 1)] if before else []
    return found


def _entries_of(cid: Cid, node: bytes) -> Entries:
    try:
        return node_entries(node)
    except Fault as fault:
        raise BadNode(cid) if fault.number == 30 else fault


def tree_apply(nodes: Nodes, root: Cid, changes: Mapping[Key, Optional[Cid]], known: bool = False) -> Edit:
    """Changes keys of a tree at once: each gets a value, or goes where that is None.

    The nodes that this needs are asked for layer by layer, each once. Each is hashed once, and one that isn't of the CID that was asked for
    is a fault; none is hashed where they are `known`: then the host owes that each is of its CID, and where one isn't, nothing that is said
    of an edit holds.

    `Missing` and `BadNode` name the node; a `Fault` NOT_TREE or TOO_MANY_NODES says that the nodes are no tree's, and BAD that a key is none.
    """
    own = ordered(changes)
    return _edit(_over_asked("tree_apply", nodes, root, own, known), len(own))


def tree_prove_change(nodes: Nodes, root: Cid, changes: Mapping[Key, Optional[Cid]], known: bool = False) -> ChangeProof:
    """What changes make of a tree, and the nodes that show it to whoever knows its root, as `Repository.prove_change` has it of a repository in memory.
    Nothing is changed by it. The nodes are asked for, and the faults come, as of `tree_apply`."""
    own = ordered(changes)
    return proof_of(_over_asked("tree_prove_change", nodes, root, own, known), own)


def tree_difference(nodes: Nodes, before: Cid, after: Cid, known: bool = False) -> Difference:
    """What the tree with one root differs by from that with the other. Of each tree just the nodes are asked for that the other lacks, and both roots:
    layer by layer, each once, and each is hashed unless they are `known`. The faults are those of `tree_apply`."""
    roots, given = {"before": cid_of(before), "after": cid_of(after)}, _Given(nodes)
    while True:
        found = Reader(_of_both("missing", "bad", given, roots, 36 * (len(given.given) + 16)))
        if not found:
            break
        asked = []
        while found:
            asked.append(found.cid())
        for cid in asked:
            given.ask(cid)
        if not known:
            given.check(asked)
    reader = Reader(_of_both("difference", "missing", given, roots, 1024 + 2 * sum(map(len, given.given.values()))))
    changes = [(reader.part(), reader.value(), reader.value()) for _ in range(reader.number())]
    drop, add = [reader.cid() for _ in range(reader.number())], []
    while reader:
        add.append((reader.cid(), reader.part()))
    return Difference(changes, add, drop)


def _of_both(name: str, room: str, given: _Given, roots: Mapping[str, bytes], first: int) -> bytes:
    """The answer of a call over nodes of two trees."""
    bad = _library.room()
    nodes, node_ends = joined(given.given.values())
    told = {"nodes": nodes, "node_ends": node_ends, "cids": b"".join(cid.bytes for cid in given.given), room: bad, **roots}
    try:
        return _library.filled(name, first, FAULTS_OF_TREES, **told)
    except Fault as fault:
        if fault.number in (2, 30):
            raise (Missing if fault.number == 2 else BadNode)(Cid(bad.raw)) from None
        raise


def _over_asked(name: str, nodes: Nodes, root: Cid, own: Sequence[Change], known: bool) -> Reader:
    """The answer of a call over the nodes that changes need, which are asked for layer by layer."""
    cid_of(root)
    given = _Given(nodes)
    try:
        given.ask_below(root, own)
    except Fault:
        # A node that isn't of its CID may have led anywhere.
        if not known:
            given.check(list(given.given))
        raise
    if not known:
        given.check(list(given.given))
    while True:
        try:
            return _answered(name, given.given, root, own)
        except Missing as fault:
            # Nodes that are no tree's may need another one.
            cid = fault.cid
        if cid in given.given:
            raise BadNode(cid)
        given.ask(cid)
        if not known:
            given.check([cid])


class _Given:
    """The nodes for which a host was asked, each once, beside their CIDs."""

    def __init__(self, nodes: Nodes) -> None:
        self.nodes = nodes
        self.given: Dict[Cid, bytes] = {}

    def ask(self, cid: Cid) -> bytes:
        self.given[cid] = node_of(self.nodes, cid)
        return self.given[cid]

    def ask_below(self, root: Cid, changes: Sequence[Change]) -> None:
        """Asks for all nodes that changes need, layer by layer."""
        left = [(root, changes)]
        for _ in range(MOST_NODES):
            left = [link for cid, own in left if cid not in self.given for link in _below(cid, self.ask(cid), own)]
            if not left:
                return
        raise Fault(31)

    def check(self, cids: Sequence[Cid]) -> None:
        """That these nodes are of the CIDs that were asked for."""
        for cid, found in zip(cids, Cid.of_each([self.given[cid] for cid in cids])):
            if cid != found:
                raise BadNode(cid)


def _below(cid: Cid, node: bytes, changes: Sequence[Change]) -> List[Tuple[Cid, Sequence[Change]]]:
    """The links of a node below which changes go, and those changes."""
    try:
        # A change goes below two links at most.
        reader, links = Reader(_library.filled("below", 2 * 52 * len(changes), node=node, **changes_of(changes))), []
    except Fault as fault:
        raise BadNode(cid) if fault.number == 30 else fault
    while reader:
        link, first, count = reader.cid(), reader.number(), reader.number()
        links.append((link, changes[first : first + count]))
    return links


def _answered(name: str, given: Mapping[Cid, bytes], root: Cid, changes: Sequence[Change]) -> Reader:
    """What a call of the library answers to changes over these nodes."""
    missing, told = _library.room(), changes_of(changes)
    nodes, node_ends = joined(given.values())
    cids = b"".join(cid.bytes for cid in given)
    # Room for the answer of nearly any edit: where it is too small all is made once more.
    first = len(nodes) + 128 * len(node_ends) + len(told["keys"]) + 256 * len(changes) + 1024
    told.update(nodes=nodes, node_ends=node_ends, cids=cids, root=root.bytes, missing=missing)
    try:
        return Reader(_library.filled(name, first, FAULTS_OF_TREES, **told))
    except Fault as fault:
        if fault.number in (2, 30):
            raise (Missing if fault.number == 2 else BadNode)(Cid(missing.raw)) from None
        raise


def _edit(reader: Reader, changes: int) -> Edit:
    """The edit of so many changes."""
    root, previous = reader.cid(), [reader.value() for _ in range(changes)]
    drop, add = [reader.cid() for _ in range(reader.number())], []
    while reader:
        add.append((reader.cid(), reader.part()))
    return Edit(root, add, drop, previous)
