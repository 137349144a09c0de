"""What the gate measured last, crate by crate: tools/gate-times.json, which tools/gate-times writes."""

import json
from collections.abc import Iterable, Mapping
from dataclasses import asdict, dataclass

from lib.edits import number_of
from lib.files import ROOT, read, write

PLACE = f"{ROOT}/tools/gate-times.json"
# What a crate's proof is guessed to take that no gate has measured, in minutes of a processor.
UNKNOWN = 2.0


@dataclass(frozen=True)
class Times:
    """Minutes of a processor that a crate took in a run of the gate, how many edits it had, and on which commit that was."""

    proof: float
    tests: float
    edits: float
    number: int
    commit: str

    @property
    def whole(self) -> float:
        return self.proof + self.tests + self.edits


@dataclass(frozen=True)
class Run:
    """The last run of the gate that was measured, and what each crate took in the last one that proved it."""

    about: dict[str, str]
    crates: dict[str, Times]

    def text(self) -> str:
        """As JSON, with a crate a line."""
        rows = [f"    {json.dumps(name)}: {json.dumps(asdict(it))}" for name, it in self.crates.items()]
        return '{\n  "about": ' + json.dumps(self.about) + ',\n  "crates": {\n' + ",\n".join(rows) + "\n  }\n}\n"


def run_in(text: str) -> Run:
    found = json.loads(text)
    return Run(found["about"], {name: Times(**it) for name, it in found["crates"].items()})


def read_run() -> Run:
    try:
        return run_in(read(PLACE))
    except FileNotFoundError:
        return Run({}, {})


def save(about: dict[str, str], measured: Mapping[str, Times], order: Iterable[str]) -> None:
    """Keeps a run: of a crate that it didn't prove anew what an earlier run took stays."""
    before = read_run().crates
    known = {name: measured.get(name) or before.get(name) for name in order}
    write(PLACE, Run(about, {name: it for name, it in known.items() if it}).text())


def proofs(names: Iterable[str]) -> dict[str, float]:
    """The minutes that the proof of each of these crates takes, as far as they are known."""
    known = read_run().crates
    return {it: known[it].proof if it in known else UNKNOWN for it in names}


def shown(minutes: float) -> str:
    return f"{minutes:.1f}" if minutes >= 0.05 else ""


def table(run: Run, order: Iterable[str]) -> str:
    """What each crate took, as Markdown."""
    rows = ["| Crate | Proof | Tests | Edits | In all | Edits, number |", "|---|---|---|---|---|---|"]
    known = [(name, run.crates[name]) for name in order if name in run.crates]
    for name, it in known:
        rows.append(f"| `{name}` | {shown(it.proof)} | {shown(it.tests)} | {shown(it.edits)} | {shown(it.whole)} | {it.number or ''} |")
    sums = [sum(getattr(it, kind) for _, it in known) for kind in ("proof", "tests", "edits", "whole")]
    rows.append(f"| **in all** | {' | '.join(map(shown, sums))} | {sum(it.number for _, it in known)} |")
    return "\n".join(rows) + "\n"


def told(run: Run, order: Iterable[str] = ()) -> str:
    """Which run the table is of, in a line, and which of these crates have not been measured."""
    about = run.about
    if not about:
        return "No run of the gate has been measured.\n"
    line = f"Measured on commit `{about['commit']}`, {about['date']}, {about['kit']}, {about['machine']}: {about['said']}, in {about['took']}."
    others = sum(it.commit != about["commit"] for it in run.crates.values())
    line += f" Those of {others} crates are of other runs." if others else ""
    lacking = ", ".join(f"`{it}`" for it in order if it not in run.crates)
    return line + (f" Not measured so far: {lacking}." if lacking else "") + "\n"


def edits_of(names: Iterable[str]) -> dict[str, int]:
    return {it: number_of(it) for it in names}
