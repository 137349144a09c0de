"""What a long proof says as it goes on: each crate that is proved, a line a minute while none is, and what is left."""

import os
import queue
import subprocess
import threading
import time
from collections.abc import Iterator

from lib.crates import Crates
from lib.processes import provers_below, subject_of
from lib.times import proofs

# How many minutes of the clock one of a processor takes before anything is proved, as if so many minutes had shown it.
USUAL, SHOWN = 1.0, 5.0


def clock(seconds: float) -> str:
    return f"{int(seconds) // 60}:{int(seconds) % 60:02}"


def told(minutes: float) -> str:
    if minutes < 0.5:
        return "some seconds are left"
    return "about a minute is left" if minutes < 1.5 else f"about {round(minutes)} minutes are left"


class Progress:
    """Which crates are proved, and since when those that aren't could be."""

    def __init__(self, crates: Crates, minutes: dict[str, float] | None = None, cores: int | None = None) -> None:
        self.crates, self.minutes = crates, minutes or proofs(crates)
        self.cores = cores or os.cpu_count() or 1
        self.began = time.monotonic()
        self.ended: dict[str, float] = {}
        self.worked = self.took = 0.0

    def began_at(self, name: str) -> float:
        """When all that a crate stands on was proved."""
        return max([self.began, *(self.ended[it] for it in self.crates.own(name) if it in self.ended)])

    def at_work(self) -> list[str]:
        """The crates that aren't proved, and all that they stand on is."""
        return [it for it in self.crates if it not in self.ended and all(dep in self.ended for dep in self.crates.own(it))]

    def left(self) -> float:
        """The minutes that are left: those of the longest chain, or of all where the processors are too few for that."""
        pace = (self.took + USUAL * SHOWN) / (self.worked + SHOWN)
        now, begun = time.monotonic(), self.at_work()
        todo = {}
        for name in self.crates:
            if name not in self.ended:
                wanted = self.minutes[name] * pace
                been = (now - self.began_at(name)) / 60 if name in begun else 0.0
                todo[name] = max(wanted - been, wanted / 10)
        return max(self.crates.chain(todo), sum(todo.values()) / self.cores)

    def done(self, name: str, is_kept: bool) -> None:
        now = time.monotonic()
        took = now - self.began_at(name)
        self.ended[name] = now
        if not is_kept:
            self.worked += self.minutes[name]
            self.took += took / 60
        number, whole = len(self.ended), len(self.crates)
        left = told(self.left()) if number < whole else ""
        line = f"  {number:2} of {whole}  {clock(now - self.began):>5}  {name:20} {'kept' if is_kept else clock(took):>6}   {left}"
        print(line.rstrip(), flush=True)

    def waits(self, pid: int) -> None:
        """A minute has gone in which no crate was proved."""
        now = time.monotonic()
        seen = {it[0] for it in map(subject_of, provers_below(pid)) if it}
        names = [it for it in self.at_work() if it in seen] or self.at_work()
        said = ", ".join(f"{it} ({(now - self.began_at(it)) / 60:.0f} min)" for it in names[: self.cores])
        print(f"  {'':8}  {clock(now - self.began):>5}  at work: {said or 'its programs'}; {told(self.left())}", flush=True)


def lines_of(ran: "subprocess.Popen[str]", every: float = 60.0) -> Iterator[str | None]:
    """The lines that a process writes, and None each time that it has written none for so many seconds."""
    lines: queue.Queue[str | None] = queue.Queue()

    def read() -> None:
        assert ran.stdout
        for line in ran.stdout:
            lines.put(line)
        lines.put(None)

    threading.Thread(target=read, daemon=True).start()
    while True:
        try:
            line = lines.get(timeout=every)
        except queue.Empty:
            yield None
            continue
        if line is None:
            return
        yield line
