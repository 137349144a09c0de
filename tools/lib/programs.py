"""Programs that were built."""

import os
import subprocess
from dataclasses import dataclass

from lib.commands import Stop
from lib.files import ROOT

MSTHOST = f"{ROOT}/target/msthost"


def program_at(path: str | None) -> str:
    """The absolute path of a program: of the one that `make build` leaves where none is named."""
    found = os.path.abspath(path or MSTHOST)
    if not os.path.isfile(found) or not os.access(found, os.X_OK):
        made = "" if path else ": make build proves and builds it"
        raise Stop(f"there is no program {os.path.relpath(found)}{made}", 2)
    return found


@dataclass(frozen=True)
class Outcome:
    """What a run of a program came to."""

    status: int
    out: bytes
    err: bytes


def outcome(program: str, words: list[str], given: bytes = b"") -> Outcome:
    ran = subprocess.run([program, *words], input=given, capture_output=True)
    return Outcome(ran.returncode, ran.stdout, ran.stderr)
