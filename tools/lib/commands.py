"""A command: its words, and one line for what stops it."""

import argparse
import os
import signal
import subprocess
import sys
from collections.abc import Callable
from typing import NoReturn


class Stop(Exception):
    """What stops a command, in one line, and the status that it then ends with."""

    def __init__(self, why: str, status: int = 1) -> None:
        super().__init__(why)
        self.status = status


def parser_of(doc: str | None) -> argparse.ArgumentParser:
    """A parser whose help begins with what the command's file says of it."""
    return argparse.ArgumentParser(description=doc, formatter_class=argparse.RawDescriptionHelpFormatter)


def ended_by(number: int, _: object) -> NoReturn:
    sys.exit(128 + number)


def run(main: Callable[[], int]) -> NoReturn:
    """Runs a command and ends with its status. A file that isn't there, or a text that isn't one, takes one line."""
    name = f"tools/{os.path.basename(sys.argv[0])}"
    # What a command has begun is ended as at Ctrl-C, and its folders go.
    signal.signal(signal.SIGTERM, ended_by)
    status = 1
    try:
        status = main()
        sys.stdout.flush()
    except Stop as why:
        status = why.status
        print(f"{name}: {why}", file=sys.stderr)
    except KeyboardInterrupt:
        status = 130
    except BrokenPipeError:
        # Whoever read this has gone; nothing is left to be written at the end.
        os.dup2(os.open(os.devnull, os.O_WRONLY), sys.stdout.fileno())
    except OSError as why:
        place = f"{why.filename}: " if why.filename else ""
        print(f"{name}: {place}{why.strerror or why}", file=sys.stderr)
    except subprocess.CalledProcessError as why:
        print(f"{name}: {' '.join(why.cmd)} ends with status {why.returncode}", file=sys.stderr)
    except UnicodeDecodeError as why:
        print(f"{name}: what it reads is no text: {why}", file=sys.stderr)
    sys.exit(status)
