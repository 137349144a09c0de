#!/usr/bin/env python3
"""What `msthost tree` prints for the lines on standard input, computed plainly: the tree by its definition, each subtree
built afresh, and nothing shared with the program. An argument is the number of zero bits a layer, 2 where there is none.
"""
import base64
import hashlib
import sys


def text_of_cid(cid):
    return "b" + base64.b32encode(cid).decode().rstrip("=").lower()


def cid_of_text(text):
    return base64.b32decode(text[1:].upper() + "======")[:36]


def cid_of(data):
    return bytes([0x01, 0x71, 0x12, 0x20]) + hashlib.sha256(data).digest()


BITS = int(sys.argv[1]) if len(sys.argv) > 1 else 2


def layer(key):
    zeros = 0
    for byte in hashlib.sha256(key).digest():
        if byte:
            return (zeros + 8 - byte.bit_length()) // BITS
        zeros += 8
    return zeros // BITS


def head(major, number):
    if number < 24:
        return bytes([major * 32 + number])
    for more, size in ((24, 1), (25, 2), (26, 4), (27, 8)):
        if number < 256**size:
            return bytes([major * 32 + more]) + number.to_bytes(size, "big")


def byte_string(data):
    return head(2, len(data)) + data


def link(cid):
    return b"\xf6" if cid is None else b"\xd8\x2a" + byte_string(b"\0" + cid)


def common(a, b):
    n = 0
    while n < min(len(a), len(b)) and a[n] == b[n]:
        n += 1
    return n


def subtree(at, pairs):
    """The CID of the node of this layer, and the blocks from it on; nothing without pairs."""
    if not pairs:
        return None, []
    groups, here = [[]], []
    for pair in pairs:
        if layer(pair[0]) == at:
            here.append(pair)
            groups.append([])
        else:
            groups[-1].append(pair)
    parts = [subtree(at - 1, group) for group in groups]
    entries, before = b"", b""
    for (key, value), (tree, _) in zip(here, parts[1:]):
        shared = common(before, key)
        entries += (
            b"\xa4\x61k" + byte_string(key[shared:]) + b"\x61p" + head(0, shared)
            + b"\x61t" + link(tree) + b"\x61v" + link(value)
        )
        before = key
    data = b"\xa2\x61e" + head(4, len(here)) + entries + b"\x61l" + link(parts[0][0])
    return cid_of(data), [data] + [block for _, blocks in parts for block in blocks]


def main():
    values = {}
    for line in sys.stdin.buffer.read().split(b"\n"):
        line = line.removesuffix(b"\r")
        if line:
            key, text = line.rsplit(b" ", 1)
            values[key] = cid_of_text(text.decode())
    pairs = sorted(values.items())
    root, blocks = subtree(max(map(lambda pair: layer(pair[0]), pairs), default=0), pairs)
    if not pairs:
        blocks = [b"\xa2\x61e\x80\x61l\xf6"]
        root = cid_of(blocks[0])
    print(text_of_cid(root))
    for block in blocks:
        print(text_of_cid(cid_of(block)), block.hex())


if __name__ == "__main__":
    main()
