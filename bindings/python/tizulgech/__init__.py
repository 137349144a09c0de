"""A verified AT Protocol repository: calls of a proved library, by ctypes alone.

    import tizulgech

    with tizulgech.Repository(1000) as repository:
        write = tizulgech.Create("app.bsky.feed.post/3jzfcijpj2z2a", b"\\xa0")
        applied = repository.apply("did:web:example.com", "3jzfcijpj2z2a", [write])
        proof = repository.prove(write.key)
    assert tizulgech.verify(applied.root, proof, write.key) == tizulgech.Cid.of(b"\\xa0")

A repository in memory: Repository, its writes, each a Write that Put, Create, Update or Delete makes, Applied, what a batch leaves, and Changed.
What a batch is tested by: check_write, check_record, record_fault, check_stamp, is_did, is_tid, is_repository_key; next_tid, the next revision by a
clock.

A tree whose nodes a program keeps elsewhere: tree_apply, tree_get, tree_path, tree_list, tree_prove_change, tree_difference, Edit, Difference, links, node_entries, Entries,
EMPTY_NODE, Missing, BadNode.

Records as JSON: record_json, json_record, BadJson; the CIDs of blobs: link_text, link_from_text. Files: check_car, Export, Repository.open_car.

Signed commits: signed_commit, read_commit, SignedCommit; file_head and file_section, parts of a file that a host puts together. A batch whose
commit is signed: Repository.preview and Repository.apply_signed, Preview. Messages of the event stream: check_commit, CheckedCommit, each
Operation of it, BadMessage.

Proofs: verify for single keys; verify_change, verify_inversion and ChangeProof for what a batch changed.

The rest: Cid and BadCid; commit_bytes, what is signed; tree_root and listing_car, from scratch; layer and is_key.

A key, a DID and a revision are text or bytes; a record, a node and a block are bytes; a `bytearray` or a `memoryview` is bytes too. Anything else
raises a TypeError, and a number, a write or a CID out of its range a ValueError. What a call refuses raises a Fault, whose number and name are
those of the C header, and nothing is changed by it.

Any number of threads may make any calls at once. Those of one repository wait for one another.

The library is the file of TIZULGECH_LIBRARY, else the one beside this package, else what the repository that it stands in built, else what the
system has; one of another interface is refused with an ImportError. What is proved ends at its calls: of this package nothing is.
"""
from ._arguments import Bytes, Text
from ._declared import VERSION
from ._library import version
from .changes import ChangeProof, Told, verify_change, verify_inversion
from .cids import Cid
from .commits import SignedCommit, file_head, file_section, read_commit, signed_commit
from .faults import FAULTS, FAULTS_OF_CIDS, FAULTS_OF_TREES, BadCid, BadJson, Fault
from .files import Export, check_car
from .keys import is_key, is_repository_key, layer
from .listings import listing_car, tree_root
from .messages import BadMessage, CheckedCommit, Operation, Preview, check_commit
from .nodes import EMPTY_NODE, BadNode, Entries, Missing, Nodes, links, node_entries
from .proofs import verify
from .records import json_record, link_from_text, link_text, record_json
from .repositories import Applied, Changed, Repository
from .stamps import check_stamp, commit_bytes, is_did, is_tid, next_tid
from .trees import Difference, Edit, tree_apply, tree_difference, tree_get, tree_list, tree_path, tree_prove_change
from .writes import Create, Delete, Put, Update, Write, check_record, check_write, record_fault

__version__ = "0.3.0"

__all__ = [
    "Applied", "BadCid", "BadJson", "BadMessage", "BadNode", "Bytes", "ChangeProof", "Changed", "CheckedCommit", "Cid", "Create", "Delete",
    "Difference", "EMPTY_NODE", "Edit", "Entries", "Export", "FAULTS", "FAULTS_OF_CIDS", "FAULTS_OF_TREES", "Fault", "Missing", "Nodes", "Operation",
    "Preview", "Put", "Repository", "SignedCommit", "Text", "Told", "Update", "VERSION", "Write", "check_car", "check_commit", "check_record",
    "check_stamp", "check_write", "commit_bytes", "file_head", "file_section", "is_did", "is_key", "is_repository_key", "is_tid", "json_record",
    "layer", "link_from_text", "link_text", "links", "listing_car", "next_tid", "node_entries", "read_commit", "record_fault", "record_json",
    "signed_commit", "tree_apply", "tree_difference", "tree_get", "tree_list", "tree_path", "tree_prove_change", "tree_root", "verify",
    "verify_change", "verify_inversion", "version",
]
