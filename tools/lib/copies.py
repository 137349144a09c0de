"""Copies of the repository in a folder of their own.

`rt ci` stops at a second crates.txt below its top, so each lies outside of the repository.
"""

import os
import shutil
import subprocess
from collections.abc import Callable, Iterable

from lib.files import ROOT, folders_in, write

# What a proof doesn't read, and what the gate alone tries.
EDITS = ("must-fail", "more-edits")


def nothing_made(_crate: str, _made: str) -> bool:
    return False


def copy_crates(room: str, names: Iterable[str], crates_txt: str, of_out: Callable[[str, str], bool] = nothing_made) -> None:
    """Copies these crates as a repository, without their must-fail edits; of what stands in a crate's folder out what is asked for."""
    os.makedirs(f"{room}/.git")
    shutil.copy(f"{ROOT}/HANDLES", room)
    write(f"{room}/crates.txt", crates_txt)
    for name in names:
        folder = f"{ROOT}/crates/{name}"

        def left_out(at: str, inside: list[str], name: str = name, folder: str = folder) -> set[str]:
            if at == folder:
                return {*EDITS}
            return {it for it in inside if not of_out(name, it)} if at == f"{folder}/out" else set()

        shutil.copytree(folder, f"{room}/crates/{name}", ignore=left_out)


def all_crates() -> list[str]:
    return [it for it in folders_in(f"{ROOT}/crates") if os.path.isdir(f"{ROOT}/crates/{it}/src")]


def files_by_git() -> list[str] | None:
    """The files of the repository but those that are ignored, or None where git doesn't say."""
    if not shutil.which("git"):
        return None
    words = ["git", "-C", ROOT, "ls-files", "-z", "--cached", "--others", "--exclude-standard"]
    ran = subprocess.run(words, capture_output=True, text=True)
    return None if ran.returncode else [it for it in ran.stdout.split("\0") if it and os.path.lexists(f"{ROOT}/{it}")]


def files_by_folders() -> list[str]:
    """The files of the repository but what the tools and rt have made."""
    found = []
    for at, folders, names in os.walk(ROOT):
        folders[:] = [it for it in folders if it not in (".git", "out", "target", "__pycache__")]
        found += [os.path.relpath(f"{at}/{it}", ROOT) for it in names]
    return found


def clone(room: str) -> None:
    """Clones the repository into the folder as it stands, with what isn't committed yet, and without what is ignored."""
    os.makedirs(f"{room}/.git")
    for path in files_by_git() or files_by_folders():
        os.makedirs(os.path.dirname(f"{room}/{path}"), exist_ok=True)
        shutil.copy2(f"{ROOT}/{path}", f"{room}/{path}", follow_symlinks=False)
