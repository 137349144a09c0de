#!/usr/bin/env python3
"""Makes the example: lines `collection/rkey CID` of a small repository, the same on each run; with the word `small` those
of a few keys with short names, for pictures.

The CIDs are those of small records, maps of DAG-CBOR with `text` and `$type`. Lines stand in no order, some keys come
twice, and a few lines end in CR LF or are empty, so that the listing shows what `msthost tree` does with them.
"""
import base64
import hashlib
import sys

COLLECTIONS = [
    ("app.bsky.feed.post", 180),
    ("app.bsky.feed.like", 120),
    ("app.bsky.feed.repost", 30),
    ("app.bsky.graph.follow", 60),
]
ALPHABET = "234567abcdefghijklmnopqrstuvwxyz"


def digest(text):
    return hashlib.sha256(text.encode()).digest()


def text_of_cid(data):
    cid = bytes([0x01, 0x71, 0x12, 0x20]) + hashlib.sha256(data).digest()
    return "b" + base64.b32encode(cid).decode().rstrip("=").lower()


def cbor_text(text):
    data = text.encode()
    head = bytes([0x60 + len(data)]) if len(data) < 24 else bytes([0x78, len(data)])
    return head + data


def record(collection, text):
    return b"\xa2" + cbor_text("text") + cbor_text(text) + cbor_text("$type") + cbor_text(collection)


def record_key(number):
    """13 letters that ascend with the number, as those that servers make of the time."""
    value = 1_700_000_000_000_000 + number * 7_919_000_003
    letters = ""
    for _ in range(13):
        letters = ALPHABET[value % 32] + letters
        value //= 32
    return letters


def lines():
    keys = [("app.bsky.actor.profile", "self")]
    for collection, count in COLLECTIONS:
        keys += [(collection, record_key(1000 * len(keys) + n)) for n in range(count)]
    pairs = [(f"{c}/{r}", c, f"record {n}") for n, (c, r) in enumerate(keys)]
    # a few records were written again: of lines with one key the last decides
    pairs += [(key, c, text + ", again") for key, c, text in pairs[::40]]
    first, last = pairs[: len(keys)], pairs[len(keys):]
    first.sort(key=lambda pair: digest(pair[0]))
    for n, (key, collection, text) in enumerate(first + last):
        yield f"{key} {text_of_cid(record(collection, text))}" + ("\r\n" if n % 97 == 5 else "\n")
        if n % 150 == 149:
            yield "\n"


def small_lines():
    words = "ant bee cat eel fox goat hare hawk iguana jay kite lion mouse newt otter raven seal stork toad wren yak".split()
    for word in sorted(words, key=lambda word: digest(word)):
        note = b"\xa1" + cbor_text("text") + cbor_text(word)
        yield f"com.example.note/{word} {text_of_cid(note)}\n"


if __name__ == "__main__":
    made = small_lines() if sys.argv[1:] == ["small"] else lines()
    sys.stdout.buffer.write("".join(made).encode())
