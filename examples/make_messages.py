#!/usr/bin/env python3
"""Writes eleven messages `#commit` of the event stream, one after the other, of the repository of the lines `KEY HEX` on
standard input, which is that of make_export.py. It shares nothing with `msthost`. Ten are true; the eleventh tells of one record
that came, and its tree has lost another. The signatures are none, but 64 bytes in their place.
"""
import hashlib
import sys

from make_export import DID, sized, text
from reference import byte_string, cid_of, head, layer, link, subtree

POSTS = b"app.bsky.feed.post/3jzfcijpj2z"
EMPTY = b"\xa2\x61e\x80\x61l\xf6"


def post(words):
    """A record with one text."""
    return head(5, 1) + text(b"text") + text(words)


# What each message does: writes of a key and a record, or none where the key goes.
BATCHES = (
    [(POSTS + b"2f", post(b"one"))],
    [(POSTS + b"2g", post(b"two")), (POSTS + b"2h", post(b"three"))],
    [(POSTS + b"2f", post(b"one, again"))],
    [(POSTS + b"2a", None)],
    [(POSTS + b"2i", post(b"four"))],
    [(b"app.bsky.feed.like/3jzfcijpj2z2j", post(b"likes")), (POSTS + b"2g", None)],
    [(POSTS + b"2k", post(b"five"))],
    [(POSTS + b"2k", post(b"six")), (POSTS + b"2l", post(b"seven"))],
    [(b"app.bsky.feed.like/3jzfcijpj2z2j", None)],
    [(POSTS + b"2m", post(b"eight"))],
    [(POSTS + b"2n", post(b"nine"))],
)
LOST = POSTS + b"2b"


def tree(records):
    pairs = sorted((key, cid_of(record)) for key, record in records.items())
    root, nodes = subtree(max((layer(key) for key, _ in pairs), default=0), pairs)
    return (root, nodes) if pairs else (cid_of(EMPTY), [EMPTY])


def commit(rev, root):
    def fields(signature):
        signed = b"" if signature is None else text(b"sig") + byte_string(signature)
        return (
            head(5, 5 if signature is None else 6) + text(b"did") + text(DID) + text(b"rev") + text(rev) + signed
            + text(b"data") + link(root) + text(b"prev") + link(None) + text(b"version") + head(0, 3)
        )

    return fields(hashlib.sha512(fields(None)).digest())


def operation(key, before, after):
    action = b"create" if before is None else b"delete" if after is None else b"update"
    return (
        head(5, 3 if before is None else 4) + text(b"cid") + link(after) + text(b"path") + text(key)
        + (b"" if before is None else text(b"prev") + link(before)) + text(b"action") + text(action)
    )


def file_of(blocks):
    header = head(5, 2) + text(b"roots") + head(4, 1) + link(cid_of(blocks[0])) + text(b"version") + head(0, 1)
    return sized(header) + b"".join(sized(cid_of(block) + block) for block in blocks)


def message(seq, rev, since, ops, before, blocks):
    fields = (
        text(b"ops") + head(4, len(ops)) + b"".join(ops) + text(b"rev") + text(rev) + text(b"seq") + head(0, seq)
        + text(b"repo") + text(DID) + text(b"time") + text(b"2026-11-30T12:00:%02dZ" % seq) + text(b"blobs") + head(4, 0)
        + text(b"since") + text(since) + text(b"blocks") + byte_string(file_of(blocks)) + text(b"commit")
        + link(cid_of(blocks[0])) + text(b"rebase") + b"\xf4" + text(b"tooBig") + b"\xf4" + text(b"prevData") + link(before)
    )
    return head(5, 2) + text(b"t") + text(b"#commit") + text(b"op") + head(0, 1) + head(5, 12) + fields


def main():
    lines = [line.split(b" ") for line in sys.stdin.buffer.read().split(b"\n") if line]
    records = {key: bytes.fromhex(digits.decode()) for key, digits in lines}
    before, since = tree(records)[0], b"3jzfcijpj2z2e"
    for seq, writes in enumerate(BATCHES, 1):
        rev = since[:-1] + bytes([since[-1] + 1])
        ops, came = [], []
        for key, record in sorted(writes):
            old = records.pop(key, None)
            if record is not None:
                records[key] = record
                came.append(record)
            ops.append(operation(key, old and cid_of(old), record and cid_of(record)))
        if seq == len(BATCHES):
            del records[LOST]
        root, nodes = tree(records)
        sys.stdout.buffer.write(message(seq, rev, since, ops, before, [commit(rev, root)] + nodes + came))
        before, since = root, rev


if __name__ == "__main__":
    main()
