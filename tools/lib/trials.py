"""Commands that are tried, and what each must come to."""

import os
import re
import subprocess
import sys
import time


class Trials:
    """A folder in which commands are run; each says how it went, and the first that went wrong ends all."""

    def __init__(self, folder: str, around: dict[str, str] | None = None) -> None:
        self.folder, self.around = folder, {**os.environ, **(around or {})}
        self.tried, self.wrong = 0, 0

    def run(self, words: list[str], wanted: str = "", status: int = 0, given: str = "") -> str:
        """Runs a command, sees how it ends and that what it says has this form, and answers what it says."""
        began = time.monotonic()
        how = {"cwd": self.folder, "env": self.around, "text": True, "errors": "replace"}
        ran = subprocess.run(words, input=given, stdout=subprocess.PIPE, stderr=subprocess.STDOUT, **how)  # type: ignore[call-overload]
        self.tried += 1
        told = f"{' '.join(words)}: status {ran.returncode}, {time.monotonic() - began:.0f} s"
        if ran.returncode != status or not re.search(wanted, ran.stdout, re.M):
            self.wrong += 1
            print(f"{told}\n  it should have ended with {status} and said {wanted!r}, and said\n{ran.stdout[-3000:]}", file=sys.stderr)
        else:
            print(f"  {told}", flush=True)
        return str(ran.stdout)

    def holds(self, told: str, is_right: bool) -> None:
        self.tried += 1
        if not is_right:
            self.wrong += 1
            print(f"  {told}: it isn't so", file=sys.stderr)

    def end(self) -> int:
        print(f"{self.tried} tried, {self.wrong} wrong", flush=True)
        return 1 if self.wrong else 0
