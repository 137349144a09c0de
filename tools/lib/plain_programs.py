"""The plain programs of tools/plain, and programs that are run beside each other: what each writes, and what it takes."""

import os
import re
import shutil
import subprocess
import tempfile
from dataclasses import dataclass

from lib.commands import Stop
from lib.files import ROOT, read


@dataclass(frozen=True)
class Taken:
    """The seconds of processor time that a program took, and the bytes that it had in memory at the most, which are no fewer than
    those of this process."""

    seconds: float
    bytes: int


def taken(words: list[str], given: str, to: str, status: int = 0) -> Taken:
    """Runs a program from a file to another, to which its errors go too where it is to end with another status than 0."""
    errors = subprocess.STDOUT if status else None
    with open(given, "rb") as source, open(to, "wb") as sink, subprocess.Popen(words, stdin=source, stdout=sink, stderr=errors) as ran:
        _, ended, used = os.wait4(ran.pid, 0)
        ran.returncode = os.waitstatus_to_exitcode(ended)
    if ran.returncode != status:
        raise Stop(f"{' '.join(words)} ends with status {ran.returncode}")
    return Taken(used.ru_utime + used.ru_stime, used.ru_maxrss * 1024)


def said(words: list[str], given: str = os.devnull) -> tuple[str, float]:
    """What a program writes, and the seconds of processor time that it took."""
    with tempfile.NamedTemporaryFile(prefix="said-") as file:
        took = taken(words, given, file.name)
        return read(file.name), took.seconds


def plain(name: str, *flags: str) -> str:
    """Builds a plain program, and answers its path."""
    if not shutil.which("cargo"):
        raise Stop("it needs cargo, 1.85 or later, by rustup (https://rustup.rs)", 2)
    around = {**os.environ, "CARGO_TARGET_DIR": f"{ROOT}/target/plain"}
    words = ["cargo", "build", "--release", "--quiet", "--offline", "--manifest-path", f"{ROOT}/tools/plain/{name}/Cargo.toml"]
    subprocess.run([*words, *flags], check=True, env=around)
    return f"{ROOT}/target/plain/release/{name}-baseline"


def ratio(one: float, other: float) -> str:
    return f"{one / other:.2f}" if other > 0 else "none, as the plain one took no time"


QUEUE = "librust-crossbeam-queue-dev"


def flags_of_debian() -> list[str]:
    """What tells cargo to take the crate crossbeam-queue from Debian's package."""
    listed = subprocess.run(["dpkg", "-L", QUEUE], capture_output=True, text=True) if shutil.which("dpkg") else None
    found = re.findall(r"^(.*)/[^/]*/Cargo\.toml$", listed.stdout, re.M) if listed else []
    if not found:
        raise Stop(f"it needs the crate crossbeam-queue: on Debian, apt-get install {QUEUE}", 2)
    return ["--config", 'source.crates-io.replace-with="debian"', "--config", f'source.debian.directory="{found[0]}"']
