"""The shared library: where it is, and how its calls are made. `ctypes` lets other threads go on while a call is under way."""
from __future__ import annotations

import ctypes
import ctypes.util
import os
from typing import Any, Dict, Iterator, List, Optional, Tuple

from ._declared import CALLS, VERSION
from .faults import FAULTS, Fault, Names

FILE = "libtizulgech.so"


class Raw(ctypes.Structure):
    """A handle, as the header has it."""

    _fields_ = [("is_open", ctypes.c_bool), ("at", ctypes.c_void_p)]


KINDS: Dict[str, List[Any]] = {
    "u8": [ctypes.c_uint8], "u16": [ctypes.c_uint16], "u64": [ctypes.c_uint64], "usize": [ctypes.c_size_t], "bool": [ctypes.c_bool],
    "bytes": [ctypes.c_char_p, ctypes.c_size_t], "ends": [ctypes.POINTER(ctypes.c_size_t), ctypes.c_size_t],
    "room": [ctypes.POINTER(ctypes.c_char), ctypes.c_size_t], "size": [ctypes.POINTER(ctypes.c_size_t)],
    "count": [ctypes.POINTER(ctypes.c_uint64)], "repository": [ctypes.POINTER(Raw)],
}


def _places() -> Iterator[Optional[str]]:
    """Where the library may be: the file of TIZULGECH_LIBRARY; beside this file, where a wheel puts it; where the repository that this file stands
    in builds it; where the system has it."""
    here = os.path.dirname(os.path.abspath(__file__))
    yield os.environ.get("TIZULGECH_LIBRARY")
    yield from filter(os.path.exists, (os.path.join(here, FILE), os.path.join(here, "..", "..", "..", "target", "library", FILE)))
    yield ctypes.util.find_library("tizulgech")


def _found() -> str:
    for place in _places():
        if place:
            return place
    raise OSError(f"there is no {FILE}: install the wheel, run `make library`, or set TIZULGECH_LIBRARY")


def _call_of(library: ctypes.CDLL, name: str) -> Tuple[Any, List[Tuple[str, bool]]]:
    """A call, and its parameters: of each whether it goes with its length."""
    parameters, _, answer = CALLS[name].partition("-> ")
    declared = [tuple(it.strip().split(": ")) for it in parameters.split(",") if it.strip()]
    call = getattr(library, f"tizulgech_{name}")
    call.argtypes = [it for _, kind in declared for it in KINDS[kind]]
    call.restype = KINDS[answer][0] if answer else None
    return call, [(parameter, len(KINDS[kind]) == 2) for parameter, kind in declared]


def _calls_of(library: ctypes.CDLL) -> Dict[str, Tuple[Any, List[Tuple[str, bool]]]]:
    """The calls of a library that has the interface for which this package is written."""
    number = _call_of(library, "version")[0]()
    if number != VERSION:
        raise ImportError(f"the library that was found has the interface {number}, and this package is written for {VERSION}: {library._name}")
    return {name: _call_of(library, name) for name in CALLS}


PATH = _found()
_calls = _calls_of(ctypes.CDLL(PATH))


def call(name: str, **given: Any) -> int:
    """A call, its arguments by their names: bytes, rooms and ends are passed with their lengths."""
    made, parameters = _calls[name]
    flat: List[Any] = []
    for parameter, has_length in parameters:
        it = given.pop(parameter)
        flat.append((ctypes.c_size_t * max(len(it), 1))(*it) if isinstance(it, list) else it)
        if has_length:
            flat.append(len(it))
    if given:
        raise TypeError(f"{name} takes no {', '.join(given)}")
    return made(*flat)


def filled(name: str, first: int = 4096, names: Names = FAULTS, **given: Any) -> bytes:
    """The answer of a call that fills a room, of which so many bytes are tried first."""
    out, length = ctypes.create_string_buffer(max(first, 1)), size()
    number = call(name, out=out, size=length, **given)
    if number == 251:
        out = ctypes.create_string_buffer(length.value)
        number = call(name, out=out, size=length, **given)
    if number:
        raise Fault(number, names=names)
    return out.raw[: length.value]


def room() -> Any:
    """Room for a CID."""
    return ctypes.create_string_buffer(36)


def size() -> Any:
    """What a length or a place is told to."""
    return ctypes.c_size_t()


def count() -> Any:
    """What a number of 64 bits is told to."""
    return ctypes.c_uint64()


def version() -> int:
    """The number of the interface of the library that was found: it is VERSION, or the package isn't imported."""
    return call("version")
