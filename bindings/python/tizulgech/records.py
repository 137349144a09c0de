"""Records as JSON, and the texts of links."""
from __future__ import annotations

import ctypes

from . import _library
from ._arguments import Bytes, Text, bytes_of, text_of
from .faults import BadJson, Fault


def record_json(record: Bytes) -> str:
    """The one JSON text of a record, by the AT Protocol's data model: its keys in the order of DAG-CBOR, no spaces, links as {"$link": ..} and bytes as
    {"$bytes": ..}.

    A `Fault` TRUNCATED to TRAILING says that the bytes are no value in DAG-CBOR; NO_JSON_FORM, that it has a whole number outside of -(2^53 - 1) to
    2^53 - 1, a link that isn't of version 1, or a key $link or $bytes.
    """
    own = bytes_of(record)
    return _library.filled("record_json", 64 + 2 * len(own), bytes=own).decode()


def json_record(text: Text) -> bytes:
    """The record in DAG-CBOR that a JSON text is, of any layout. A text that is none raises a `BadJson`, which has the way to its first fault."""
    own = text_of(text)
    room = 64 + len(own)
    while True:
        out, size = ctypes.create_string_buffer(room), _library.size()
        number = _library.call("json_record", text=own, out=out, size=size)
        told = 60 <= number <= 68
        if number == 251 or (told and size.value > room):
            room = size.value
            continue
        if told:
            raise BadJson(number, out.raw[: size.value].decode())
        if number:
            raise Fault(number)
        return out.raw[: size.value]


def link_text(cid: Bytes) -> str:
    """The text in which a link has a CID of version 1, whatever its codec and hash are, as that of a blob. A `Fault` BAD says that the bytes are no such
    CID."""
    own = bytes_of(cid)
    return _library.filled("link_text", 64 + 2 * len(own), cid=own).decode()


def link_from_text(text: Text) -> bytes:
    """The CID of version 1 with this text, which has no other one; else a `Fault` BAD."""
    return _library.filled("link_from_text", text=text_of(text))
