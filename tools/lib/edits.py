"""Wrong bodies: the edits in must-fail and more-edits of a crate."""

import os
import re
from dataclasses import dataclass

from lib.files import ROOT

FILE_NAME = r"[A-Za-z0-9_-][A-Za-z0-9_.-]*\.edit"


class BadEdit(Exception):
    """Why rt can't apply an edit."""


@dataclass(frozen=True)
class Pair:
    """A text that stands once in a file of the crate, and what stands there in its place."""

    path: str
    old: str
    new: str


def pairs_of(text: str) -> list[Pair]:
    path, old = "", ""
    found = []
    for line in text.split("\n"):
        if line.startswith("file: "):
            path = line.removeprefix("file: ").strip()
            if os.path.normpath(path) != path or not path.startswith(("src/", "specs/", "proofs/")):
                raise BadEdit("a 'file:' line names no file below src/, specs/ or proofs/")
        elif line.startswith("old: "):
            old = line.removeprefix("old: ")
        elif line.startswith("new:"):
            if not path or not old:
                raise BadEdit("a 'new:' line stands before any 'file:' or 'old:' line")
            found.append(Pair(path, old, line.removeprefix("new:").removeprefix(" ")))
            old = ""
    if not found:
        raise BadEdit("it has no 'old:' and 'new:' pair")
    return found


def applied(folder: str, pairs: list[Pair]) -> dict[str, str]:
    """What the files of a crate's folder that an edit changes then are, by their paths in it."""
    texts: dict[str, str] = {}
    for it in pairs:
        if it.path not in texts:
            try:
                with open(f"{folder}/{it.path}", encoding="utf-8") as file:
                    texts[it.path] = file.read()
            except (OSError, UnicodeDecodeError):
                raise BadEdit(f"there is no file {it.path} in crates/{os.path.basename(folder)}") from None
        count = texts[it.path].count(it.old)
        if count != 1:
            raise BadEdit(f"an 'old:' text is in {it.path} {count} times, and not once: {it.old}")
        texts[it.path] = texts[it.path].replace(it.old, it.new)
    return texts


def names_in(folder: str) -> tuple[list[str], list[str]]:
    """The edits that stand right in a folder, without their ending, and what is wrong with other files there."""
    found, faults = [], []
    for at, _, names in os.walk(folder):
        for name in sorted(names):
            if at == folder and re.fullmatch(FILE_NAME, name):
                found.append(name.removesuffix(".edit"))
            elif not name.endswith(".md"):
                path = os.path.relpath(f"{at}/{name}", ROOT)
                faults.append(f"{path}: an edit stands right in its folder, and its name is of letters, digits, _, - and . and ends in .edit")
    return found, faults


def folder_of(crate: str, kind: str = "must-fail") -> str:
    return f"{ROOT}/crates/{crate}/{kind}"


def number_of(crate: str) -> int:
    """How many edits of a crate stand in the gate."""
    return len(names_in(folder_of(crate))[0])
