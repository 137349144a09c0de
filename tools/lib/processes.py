"""The processes of the prover below a run of rt, as /proc shows them: which crate each is at, and what it has taken."""

import os

TICKS = os.sysconf("SC_CLK_TCK")


def read(path: str) -> bytes:
    try:
        with open(path, "rb") as it:
            return it.read()
    except OSError:
        return b""


def children_of(pid: int) -> list[int]:
    found: list[int] = []
    for task in os.listdir(f"/proc/{pid}/task") if os.path.isdir(f"/proc/{pid}/task") else []:
        found += [int(it) for it in read(f"/proc/{pid}/task/{task}/children").split()]
    return found


def below(pid: int) -> list[int]:
    """The processes below one."""
    found = children_of(pid)
    return found + [it for child in found for it in below(child)]


def provers_below(pid: int) -> list[int]:
    """The processes of the prover below one, without those that such a process has started itself."""
    found: list[int] = []
    for child in children_of(pid):
        found += [child] if subject_of(child) else provers_below(child)
    return found


def subject_of(pid: int) -> tuple[str, str] | None:
    """The crate that a process of the prover is at, and whether it proves it, its tests or one of its edits."""
    words = read(f"/proc/{pid}/cmdline").decode(errors="replace").split("\0")
    if len(words) < 2 or os.path.basename(words[0]) != "rattle" or "--crate-name" not in words:
        return None
    crate, folder = words[words.index("--crate-name") + 1], folder_of(pid)
    if not folder:
        return None
    if "/rt-edit-" in folder:
        return crate, "edits"
    return crate, "tests" if "--test" in words else "proof"


def folder_of(pid: int) -> str:
    """The folder that a process runs in."""
    try:
        return os.readlink(f"/proc/{pid}/cwd")
    except OSError:
        return ""


def seconds_of(pid: int) -> tuple[int, float]:
    """When a process began, and the processor seconds that it took with those of its children that have ended."""
    fields = read(f"/proc/{pid}/stat").rpartition(b")")[2].split()
    if len(fields) < 20:
        return 0, 0.0
    return int(fields[19]), sum(int(it) for it in fields[11:15]) / TICKS


def is_running(pid: int) -> bool:
    fields = read(f"/proc/{pid}/stat").rpartition(b")")[2].split()
    return bool(fields) and fields[0] != b"Z"
