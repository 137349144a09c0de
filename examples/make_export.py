#!/usr/bin/env python3
"""Writes the CAR file in which a server exports the repository of the lines `KEY HEX` on standard input: a signed commit, the
nodes of the tree, and the records. It shares nothing with `msthost`. The signature is none, but 64 bytes in its place.
"""
import hashlib
import sys

from reference import byte_string, cid_of, head, layer, link, subtree

DID, REV = b"did:web:example.com", b"3jzfcijpj2z2e"


def text(data):
    return head(3, len(data)) + data


def commit(root, signature):
    """The bytes of the commit over this root, which are signed without a signature."""
    signed = b"" if signature is None else text(b"sig") + byte_string(signature)
    return (
        head(5, 5 if signature is None else 6) + text(b"did") + text(DID) + text(b"rev") + text(REV) + signed
        + text(b"data") + link(root) + text(b"prev") + link(None) + text(b"version") + head(0, 3)
    )


def varint(number):
    return bytes([number]) if number < 128 else bytes([128 + number % 128]) + varint(number // 128)


def sized(data):
    return varint(len(data)) + data


def main():
    lines = [line.split(b" ") for line in sys.stdin.buffer.read().split(b"\n") if line]
    records = sorted((key, bytes.fromhex(digits.decode())) for key, digits in lines)
    pairs = [(key, cid_of(record)) for key, record in records]
    root, nodes = subtree(max(layer(key) for key, _ in pairs), pairs)
    signed = commit(root, hashlib.sha512(commit(root, None)).digest())
    header = head(5, 2) + text(b"roots") + head(4, 1) + link(cid_of(signed)) + text(b"version") + head(0, 1)
    blocks = [signed] + nodes + [record for _, record in records]
    sys.stdout.buffer.write(sized(header) + b"".join(sized(cid_of(block) + block) for block in blocks))


if __name__ == "__main__":
    main()
