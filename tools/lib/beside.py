"""The jobs of `bench` beside those of a plain program that does the same: what both are given, what both must tell alike, and the
times in what they write. Each is run in turns, and what counts is the least of all turns. Instructions are counted by valgrind, in
the calls that a job is about: those of two rounds without those of one, so that what comes before them falls out.
"""

import os
import re
import shutil
import subprocess
import tempfile
from collections.abc import Callable, Iterable
from dataclasses import dataclass, field, replace
from pathlib import Path
from random import Random

from lib.commands import Stop
from lib.made_input import two_listings, usual_keys
from lib.model import cid_of, text_of
from lib.plain_programs import ratio, said


@dataclass(frozen=True)
class Figure:
    """A time in what a job writes: what it is of, the pattern of its line with the number in it, and how many nanoseconds each is.
    Where the job tells what its own hashing takes alone that stands behind it. The plain program may have another line."""

    name: str
    line: str
    scale: int = 1
    aim: float | None = None
    hashing: str | None = r".* (\d+) its hashing alone"
    other: str | None = None

    def of(self, text: str) -> int | None:
        found = re.search(f"^{self.line}", text, re.M)
        return self.scale * int(found[1]) if found else None

    def of_plain(self, text: str) -> int | None:
        return replace(self, line=self.other or self.line).of(text)

    def hashing_of(self, text: str) -> int | None:
        found = re.search(f"^{self.line}{self.hashing}", text, re.M) if self.hashing else None
        return self.scale * int(found[2]) if found else None


@dataclass(frozen=True)
class Calls:
    """What instructions are counted of: the calls by their names in both programs, and a pattern of how many things they did in a round,
    and how often each; one thing where there is no pattern."""

    name: str
    own: str
    plain: str
    number: str = ""
    times: int = 1

    def of_round(self, text: str) -> int:
        found = re.search(self.number, text, re.M) if self.number else None
        return max(int(found[1]) * self.times if found else 1, 1)


@dataclass(frozen=True)
class Job:
    """A job of `bench`, its counts and its rounds, the name of the plain program, which takes the same words, what both must write
    alike, the figures, the input, if there is one, of so many lines as the first count says, what it is of, and the calls of which the
    instructions are counted, with 10,000 keys."""

    word: str
    counts: tuple[int, ...]
    rounds: int
    plain: str
    same: str
    figures: tuple[Figure, ...]
    given: Callable[[int], bytes] | None = None
    about: str = ""
    calls: tuple[Calls, ...] = ()

    @property
    def name(self) -> str:
        return "-".join([self.word, *map(str, self.counts[1:])])

    @property
    def told(self) -> list[str]:
        """The words that both programs are given; the count of a job with an input is that of its lines."""
        return [self.word, *map(str, () if self.given else self.counts), str(self.rounds)]

    def smaller(self, by: int) -> "Job":
        """The same job with counts that are so many times smaller, and one round."""
        return replace(self, counts=tuple(it if it <= 100 else max(it // by, 100) for it in self.counts), rounds=1)


@dataclass
class Measured:
    """Nanoseconds of a figure: those of the job, of its hashing alone, and of the plain program; of each the least so far."""

    job: Job
    figure: Figure
    own: int | None = None
    hashing: int | None = None
    plain: int | None = None
    turns: int = field(default=0)

    def take(self, own: str, plain: str) -> None:
        for name, found in (("own", self.figure.of(own)), ("hashing", self.figure.hashing_of(own)), ("plain", self.figure.of_plain(plain))):
            before = getattr(self, name)
            setattr(self, name, found if before is None else before if found is None else min(found, before))
        if self.own is None or self.plain is None:
            raise Stop(f"{' '.join(self.job.told)}: the line of {self.figure.name} isn't there")
        self.turns += 1

    def cells(self) -> list[str]:
        own, hashing, plain = self.own or 0, self.hashing, self.plain or 0
        of_hashing = [shown(hashing), ratio(own, hashing)] if hashing else ["", ""]
        aim = f"{self.figure.aim:g}" if self.figure.aim else ""
        return [self.figure.name, f'`make bench ARGS="--only {self.job.name}"`', shown(own), *of_hashing, shown(plain), ratio(own, plain), aim, self.job.about]

    def line(self) -> str:
        """In a line, for who waits for it."""
        own, hashing, plain = self.own or 0, self.hashing, self.plain or 0
        beside = f"its hashing alone {shown(hashing)}, ratio {ratio(own, hashing)}; " if hashing else ""
        return f"{self.figure.name}: {shown(own)}; {beside}plain {shown(plain)}, ratio {ratio(own, plain)}"


HEADS = ["Job", "Command", "Time", "Its hashing alone", "Times that", "Plain program", "Ratio", "Aim", "Of what"]


def shown(nanos: int) -> str:
    if nanos < 1_000:
        return f"{nanos} ns"
    return f"{nanos / 1e3:.1f} µs" if nanos < 1_000_000 else f"{nanos / 1e6:.1f} ms"


def as_table(heads: list[str], rows: Iterable[list[str]]) -> str:
    """As Markdown."""
    lines = ["".join(f"| {it} " if it else "| " for it in row) + "|" for row in (heads, *rows)]
    return "\n".join([lines[0], "|" + "---|" * len(heads), *lines[1:]]) + "\n"


def table(measured: Iterable[Measured]) -> str:
    return as_table(HEADS, (it.cells() for it in measured))


@dataclass(frozen=True)
class Counted:
    """Instructions for each thing that calls did, of the job and of the plain program."""

    calls: Calls
    own: int
    plain: int

    def cells(self) -> list[str]:
        return [self.calls.name, f"{self.own:,}", f"{self.plain:,}", ratio(self.own, self.plain)]

    def line(self) -> str:
        return f"{self.calls.name}: {self.own:,} instructions; plain {self.plain:,}, ratio {ratio(self.own, self.plain)}"


def table_of_counted(counted: Iterable[Counted]) -> str:
    return as_table(["Job", "Instructions", "Plain program", "Ratio"], (it.cells() for it in counted))


def listing(count: int) -> bytes:
    """Lines of so many keys and CIDs, in no order."""
    pick = Random(7)
    lines = [key + b" " + text_of(cid_of(key)).encode() + b"\n" for key in usual_keys(pick, count)]
    pick.shuffle(lines)
    return b"".join(lines)


def told_alike(job: Job, own: str, plain: str) -> None:
    found, wanted = ([line[0] for line in re.finditer(job.same, it, re.M)] for it in (own, plain))
    if found != wanted or not found:
        raise Stop(f"{' '.join(job.told)}: the plain program says {wanted}, and not {found}")


def measure(job: Job, bench: str, plain: str, turns: int) -> list[Measured]:
    """Runs both programs in turns."""
    measured = [Measured(job, it) for it in job.figures]
    with tempfile.NamedTemporaryFile(prefix="given-") as file:
        if job.given:
            Path(file.name).write_bytes(job.given(job.counts[0]))
        given = file.name if job.given else os.devnull
        for _ in range(turns):
            # The plain program for differences has no other job, so it is given the rounds alone.
            words = job.told if job.plain == "bench" else job.told[1:]
            own, other = said([bench, *job.told], given)[0], said([plain, *words], given)[0]
            told_alike(job, own, other)
            for it in measured:
                it.take(own, other)
    return measured


def instructions(calls: str, words: list[str], given: str) -> tuple[int, str]:
    """How many instructions a program takes in these calls, and what it writes."""
    if not shutil.which("valgrind"):
        raise Stop("it needs valgrind: on Debian, apt-get install valgrind", 2)
    flags = ["--tool=callgrind", "--callgrind-out-file=/dev/null", "--collect-atstart=no", f"--toggle-collect={calls}"]
    with open(given, "rb") as source:
        ran = subprocess.run(["valgrind", *flags, *words], stdin=source, capture_output=True, text=True)
    found = re.search(r"Collected : (\d+)", ran.stderr)
    if ran.returncode or not found:
        raise Stop(f"valgrind {' '.join(words)} ends with status {ran.returncode}")
    return int(found[1]), ran.stdout


def counted(job: Job, bench: str, plain: str) -> list[Counted]:
    """Counts the instructions of a job's calls in both programs, with at most 10,000 keys."""
    made, job = [], replace(job, counts=tuple(min(it, 10_000) for it in job.counts))
    with tempfile.NamedTemporaryFile(prefix="given-") as file:
        if job.given:
            Path(file.name).write_bytes(job.given(job.counts[0]))
        given = file.name if job.given else os.devnull
        for calls in job.calls:
            each = []
            for program, name, own in ((bench, calls.own, True), (plain, calls.plain, False)):
                some = [replace(job, rounds=rounds).told for rounds in (1, 2)]
                (one, text), (two, _) = (instructions(name, [program, *(words if own or job.plain == "bench" else words[1:])], given) for words in some)
                if two <= one:
                    raise Stop(f"{job.name}: there are no calls of {name}")
                each.append((two - one) // calls.of_round(text))
            made.append(Counted(calls, each[0], each[1]))
    return made


TREE, LOOK_UP = r"\d+ keys, \d+ nodes, (\d+) microseconds", r".* (\d+) ns a look-up at the least"
EDIT, WRITE = r" at once: .* (\d+) ns an edit at the least", r": (\d+) ns a write at the least"
CAR, PROOF = r"\d+ keys, a CAR of \d+ bytes, (\d+) microseconds", r"\d+ proofs of \d+ nodes, each (\d+) ns to prove"
VERDICT, DIGESTS = r"\d+ proofs of \d+ nodes, each \d+ ns to prove and (\d+) ns to verify at the least", r", (\d+) ns its digests alone"
WRITTEN, CHECKED = r"a message: (\d+) ns to write", r"a message: \d+ ns to write, (\d+) ns to check"
UNDONE = r"(\d+) ns to write where the put is undone whole"
COMPARED = r"\d+ changes, \d+ nodes come, \d+ go, \d+ reads, (\d+) ns at the least"

SAME_EDITS = r"^.* at once: \d+ edits, \d+ blocks read, \d+ added, \d+ dropped|^the last root is .*$"
SAME_WRITES = r"^\d+ keys, .* \d+ a batch$|^the last commit is .*$"
SAME_EXPORT = r"^\d+ keys, a CAR of \d+ bytes|^\d+ proofs of \d+ nodes"
# All messages are taken.
SAME_MESSAGES = r"^\d+ keys, (\d+) messages of \d+ bytes in all, \1 taken, .*$"


def listings(count: int) -> bytes:
    return two_listings(Random(7), count, 100)


JOBS = (
    Job("build", (100_000,), 15, "bench", r"^\d+ keys, \d+ nodes", (Figure("a tree from scratch", TREE, 1_000, 0.8),), listing, "100,000 keys"),
    Job("get", (100_000,), 20, "bench", r"^.* reads in all", (Figure("a look-up", LOOK_UP, aim=1.2),), None, "100,000 keys, the table of nodes an ordered map",
        (Calls("a look-up", "bench::look_ups::count*", "*trees::looked_up*", r"\d+ of (\d+) found"),)),
    Job(
        "edit", (10_000,), 3, "bench", SAME_EDITS,
        (Figure("a put", f"put, 1{EDIT}", aim=1.1), Figure("a delete", f"delete of a first key, 1{EDIT}", aim=1.1),
         Figure("a put, a hundred at once", f"put, 100{EDIT}")),
        None, "10,000 keys, the table of nodes an ordered map",
        (Calls("a put or a delete", "bench::edits::Tree::time*", "*Desk::one_by_one*", r"^put, 1 at once: (\d+) edits", 3),),
    ),
    Job(
        "apply", (10_000, 1), 3, "bench", SAME_WRITES,
        (Figure("a put in a repository", f"put{WRITE}", aim=1.2), Figure("a delete there", f"delete{WRITE}", aim=1.2)),
        None, "10,000 keys, a commit a write; the plain program goes along the path of the key",
        (Calls("a put or a delete in a repository", "bench::desks::Desk::apply_all*", "*Desk::apply_all*", r"(\d+) writes", 2),),
    ),
    Job(
        "apply", (10_000, 100), 5, "bench", SAME_WRITES, (Figure("a put there, a hundred a batch", f"put{WRITE}", aim=1.2),), None, "10,000 keys",
        (Calls("the same, a hundred a batch", "bench::desks::Desk::apply_all*", "*Desk::apply_all*", r"(\d+) writes", 2),),
    ),
    Job(
        "export", (100_000,), 5, "bench", SAME_EXPORT,
        (Figure("a repository's CAR", CAR, 1_000, 1.3), Figure("a proof of a key", PROOF, aim=1.5), Figure("verifying a key", VERDICT, 1, 1.3, DIGESTS)),
        None, "100,000 keys with records of 288 bytes",
    ),
    Job(
        "messages", (100_000,), 3, "bench", SAME_MESSAGES,
        (Figure("a message of one put written", WRITTEN, 1, 1.3, None), Figure("the same, beside undoing the put whole", WRITTEN, 1, None, None, UNDONE),
         Figure("a message of one put checked", CHECKED, 1, 1.2, r", (\d+) ns to hash")),
        None, "into 100,000 keys; the hashing is that of all bytes of the message",
        (Calls("a message of one put written", "bench::messages::written*", "*events::written*", r"(\d+) messages"),
         Calls("a message of one put checked", "bench::messages::leads_to*", "*events::checked*", r"(\d+) messages")),
    ),
    Job(
        "difference", (10_000,), 20, "difference", r"^\d+ changes, \d+ nodes come, \d+ go", (Figure("the difference of two trees", COMPARED, aim=1),),
        listings, "10,000 keys, 100 changes",
        (Calls("the difference of two trees", "bench::differences::compare*", "difference_baseline::compare*"),),
    ),
)
MESSAGES = next(it for it in JOBS if it.word == "messages")
