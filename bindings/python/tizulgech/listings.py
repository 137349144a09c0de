"""Trees and repositories from scratch: of a listing of all that they have."""
from __future__ import annotations

from typing import Iterable, Tuple

from . import _library
from ._arguments import Bytes, Text, bytes_of, joined, text_of
from .cids import Cid, cid_of
from .faults import FAULTS_OF_TREES, Fault


def tree_root(pairs: Iterable[Tuple[Text, Cid]]) -> Tuple[Cid, int]:
    """The root and the number of nodes of the tree of these pairs, whose keys ascend. A `Fault` where they don't: NOT_ASCENDING."""
    out, nodes, pairs = _library.room(), _library.size(), list(pairs)
    keys, ends = joined(text_of(key) for key, _ in pairs)
    number = _library.call("tree_root", keys=keys, ends=ends, cids=b"".join(cid_of(cid) for _, cid in pairs), out=out, nodes=nodes)
    if number:
        raise Fault(number, names=FAULTS_OF_TREES)
    return Cid(out.raw), nodes.value


def listing_car(did: Text, rev: Text, records: Iterable[Tuple[Text, Bytes]]) -> bytes:
    """The CAR file of a repository whose one batch puts these records, each a key and its bytes, under this stamp. A `Fault` NOT_BUILT where a
    repository doesn't take them, or not under this stamp, or there are none."""
    records = list(records)
    keys, key_ends = joined(text_of(key) for key, _ in records)
    whole, record_ends = joined(bytes_of(record) for _, record in records)
    # Room for most files: where it is too small all is made once more.
    first = 2 * (len(keys) + len(whole)) + 300 * len(records) + 1024
    given = {"did": text_of(did), "rev": text_of(rev), "keys": keys, "key_ends": key_ends, "records": whole, "record_ends": record_ends}
    return _library.filled("listing_car", first, FAULTS_OF_TREES, **given)
