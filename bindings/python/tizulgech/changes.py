"""Changes of keys, and what proves what they make of a repository."""
from __future__ import annotations

from dataclasses import dataclass, field
from typing import Any, Dict, Iterable, List, Mapping, Optional, Sequence, Tuple, TypeVar

from . import _library
from ._answers import Reader
from ._arguments import Bytes, Text, bytes_of, joined, text_of
from .cids import Cid, cid_of, value_of
from .faults import FAULTS_OF_TREES, Fault
from .nodes import BadNode, Missing

# A key of a mapping: whatever kind of text all of its keys are.
Key = TypeVar("Key", bound=Text)
# Changes that are told: of each the key, the CID of what it had, and of what it has, or None where there is none.
Told = Sequence[Tuple[Text, Optional[Cid], Optional[Cid]]]
# A change as the library takes it: a key, and its new value.
Change = Tuple[bytes, bytes]


@dataclass(frozen=True)
class ChangeProof:
    """What changes make of a tree, and what shows it.

    `after` is the root after them; `changes` are they, each a key, what it had and what it has, in the order of the keys; `nodes` are those of the
    tree before that doing them reads. Who knows the root before gives all of it to `verify_change`.
    """

    after: Cid
    changes: List[Tuple[bytes, Optional[Cid], Optional[Cid]]] = field(default_factory=list)
    nodes: List[bytes] = field(default_factory=list)


def verify_change(before: Cid, after: Cid, nodes: Iterable[Bytes], changes: Told) -> None:
    """Raises a fault unless the tree with one root becomes that with the other by these changes, as nodes of the tree before show. Each change
    is a key, what it had and what it has; the keys ascend.

    Where the root before is that of some records, the root after is that of these records with the changes done: so who goes on from root to
    root begins with the empty tree's, or with one that it computed, and verifies step by step.

    `Missing` and `BadNode` name the node; a `Fault` OTHER_VALUE has the place of the change whose key had another value; OTHER_ROOT, the changes
    lead to another root; NOT_TREE and TOO_MANY_NODES, the nodes are no tree's; BAD, the keys don't ascend.
    """
    _verify("verify_change", before, after, nodes, changes)


def verify_inversion(before: Cid, after: Cid, nodes: Iterable[Bytes], changes: Told) -> None:
    """Raises a fault unless these changes undone lead from the tree with the root after back to the root before, as nodes of the tree after
    show: the operation inversion of the event stream. The faults are those of `verify_change`, with both trees exchanged.

    No fault speaks only of whatever records have the root after. Of a root that no records have it says nothing, and one can be made up that
    hides keys: so nobody goes on from a root after by it, but by `verify_change`.
    """
    _verify("verify_inversion", before, after, nodes, changes)


def _verify(name: str, before: Cid, after: Cid, proof: Iterable[Bytes], changes: Told) -> None:
    missing, place = _library.room(), _library.size()
    nodes, node_ends = joined(map(bytes_of, proof))
    given = {"nodes": nodes, "node_ends": node_ends, "before": cid_of(before), "after": cid_of(after), **told_of(changes)}
    number = _library.call(name, missing=missing, place=place, **given)
    if number == 2:
        raise Missing(Cid(missing.raw))
    if number == 30:
        raise BadNode(Cid(missing.raw))
    if number:
        raise Fault(number, place.value if number == 33 else 0, FAULTS_OF_TREES)


def ordered(changes: Mapping[Key, Optional[Cid]]) -> List[Change]:
    """Changes in the order of their keys."""
    return sorted(((text_of(key), value_of(value)) for key, value in changes.items()), key=lambda it: it[0])


def proof_of(reader: Reader, changes: Sequence[Change]) -> ChangeProof:
    """The proof of these changes that the library wrote."""
    after, told = reader.cid(), [(key, reader.value(), Cid(value) if any(value) else None) for key, value in changes]
    return ChangeProof(after, told, reader.parts())


def changes_of(changes: Sequence[Change]) -> Dict[str, Any]:
    """Changes as arguments of a call."""
    keys, key_ends = joined(key for key, _ in changes)
    return {"keys": keys, "key_ends": key_ends, "values": b"".join(value for _, value in changes)}


def told_of(changes: Told) -> Dict[str, Any]:
    """Changes that are told as arguments of a call: keys, and what each had and has."""
    keys, key_ends = joined(text_of(key) for key, _, _ in changes)
    befores, afters = b"".join(value_of(it) for _, it, _ in changes), b"".join(value_of(it) for _, _, it in changes)
    return {"keys": keys, "key_ends": key_ends, "befores": befores, "afters": afters}
