"""The files of the repository."""

import os

ROOT = os.path.dirname(os.path.dirname(os.path.dirname(os.path.realpath(__file__))))


def read(path: str) -> str:
    with open(path, encoding="utf-8") as it:
        return it.read()


def write(path: str, text: str) -> None:
    """Writes a file whole or not at all, with the folders above it."""
    os.makedirs(os.path.dirname(os.path.abspath(path)), exist_ok=True)
    with open(f"{path}.new", "w", encoding="utf-8") as it:
        it.write(text)
    os.replace(f"{path}.new", path)


def text_of(path: str) -> str:
    """A file of the repository, by its path from the top."""
    return read(f"{ROOT}/{path}")


def bytes_of(path: str) -> bytes:
    with open(f"{ROOT}/{path}", "rb") as it:
        return it.read()


def folders_in(path: str) -> list[str]:
    found = sorted(os.listdir(path)) if os.path.isdir(path) else []
    return [it for it in found if os.path.isdir(f"{path}/{it}")]
