"""Signed commits, and the parts of files that a host puts together by itself."""
from __future__ import annotations

from dataclasses import dataclass
from typing import Optional

from . import _library
from ._answers import Reader
from ._arguments import Bytes, Text, bytes_of, text_of
from .cids import Cid, cid_of


@dataclass(frozen=True)
class SignedCommit:
    """What a signed commit says: whose repository it is, the revision, the root of the tree, the commit before, which today's don't name, the
    signature, which nothing here tests, and the bytes that were signed."""

    did: str
    rev: str
    root: Cid
    prev: Optional[Cid]
    sig: bytes
    unsigned: bytes


def signed_commit(did: Text, rev: Text, root: Cid, sig: Bytes) -> bytes:
    """The bytes of the signed commit of a stamp, which isn't tested, over the root of a tree. What is signed is `commit_bytes` of the same.

    An account without records begins with a commit over the root of the empty tree, whose one node is `EMPTY_NODE`; a change of its key is a new
    commit over the same root. Such a repository's file is `file_head` of the commit's CID, and `file_section` of the commit and of the node.
    """
    return _library.filled("signed_commit", did=text_of(did), rev=text_of(rev), root=cid_of(root), sig=bytes_of(sig))


def read_commit(block: Bytes) -> SignedCommit:
    """What the signed commit of these bytes says. A `Fault` says why they are none: NOT_A_COMMIT, COMMIT_DID or COMMIT_REV."""
    return commit_in(Reader(_library.filled("read_commit", bytes=bytes_of(block))))


def file_head(root: Cid) -> bytes:
    """The header of a file (CARv1) with this root. Behind it come the sections of its blocks."""
    return _library.filled("file_head", root=cid_of(root))


def file_section(cid: Cid, block: Bytes) -> bytes:
    """The section of a block with this CID in a file (CARv1). Nothing is hashed."""
    own = bytes_of(block)
    return _library.filled("file_section", first=len(own) + 46, cid=cid_of(cid), block=own)


def commit_in(reader: Reader) -> SignedCommit:
    """The next commit of an answer."""
    did, rev, root, prev = reader.part().decode(), reader.part().decode(), reader.cid(), reader.value()
    return SignedCommit(did, rev, root, prev, reader.part(), reader.part())
