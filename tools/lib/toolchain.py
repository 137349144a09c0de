"""The Rattle toolchain: where it is, and its commands."""

import contextlib
import functools
import os
import shutil
import signal
import subprocess
from collections.abc import Iterator, Sequence

from lib.commands import Stop


def need_rt() -> None:
    if not shutil.which("rt"):
        raise Stop("rt, of the Rattle toolchain, is not on the path", 2)


@functools.cache
def kit() -> str:
    """The folder of the toolchain."""
    need_rt()
    return os.path.dirname(subprocess.run(["rt", "doc"], capture_output=True, text=True, check=True).stdout.strip())


@functools.cache
def version() -> str:
    need_rt()
    return subprocess.run(["rt", "version"], capture_output=True, text=True, check=True).stdout


@contextlib.contextmanager
def running(words: Sequence[str], folder: str = ".", is_apart: bool = False) -> Iterator["subprocess.Popen[str]"]:
    """A command whose output, with what it says is wrong, is read while it runs; it is ended where the reader stops.

    One that stands apart leads a group of its own, which can be ended whole.
    """
    with subprocess.Popen(
        words,
        cwd=folder,
        stdin=subprocess.DEVNULL,
        stdout=subprocess.PIPE,
        stderr=subprocess.STDOUT,
        text=True,
        errors="replace",
        start_new_session=is_apart,
    ) as ran:
        try:
            yield ran
        except BaseException:
            ran.send_signal(signal.SIGTERM)
            raise


def said(words: Sequence[str], folder: str = ".") -> tuple[int, str]:
    """The status of a command, and all that it says."""
    with running(words, folder) as ran:
        out, _ = ran.communicate()
    return ran.returncode, out
