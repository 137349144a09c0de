"""Keys of trees and of repositories."""
from __future__ import annotations

from . import _library
from ._arguments import Text, text_of


def layer(key: Text) -> int:
    """The layer of a key in a tree, from 0 to 128: half of the leading zero bits of its SHA-256."""
    return _library.call("layer", key=text_of(key))


def is_key(key: Text) -> bool:
    """Whether a tree may have the key: 1 to 1,024 bytes."""
    return bool(_library.call("is_key", key=text_of(key)))


def is_repository_key(key: Text) -> bool:
    """Whether a repository may have a record under the key: a collection, a slash and a record key."""
    return bool(_library.call("is_repository_key", key=text_of(key)))
