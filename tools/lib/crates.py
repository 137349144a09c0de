"""What crates.txt says: each crate, what it stands on, and whether it is of tests."""

import re
from collections.abc import Iterator, Mapping
from dataclasses import dataclass

from lib.commands import Stop
from lib.files import text_of

# What serves tests and measurements, and stands above the line for tests.
OTHERS = ("bench", "refusing")


@dataclass(frozen=True)
class Crate:
    name: str
    line: str
    needs: tuple[str, ...]
    is_test: bool

    @property
    def is_static(self) -> bool:
        return "staticlib" in self.line.partition(":")[0].split()


class Crates(Mapping[str, Crate]):
    """The crates by their names, in the order of the file."""

    def __init__(self, text: str) -> None:
        self.all: dict[str, Crate] = {}
        is_test = False
        for line in text.splitlines():
            is_test = is_test or line == "# tests"
            head, colon, needs = line.partition("#")[0].partition(":")
            if not colon:
                continue
            found = re.match(r"\w+", head)
            if not found:
                raise Stop(f"crates.txt: this line names no crate: {line}")
            self.all[found[0]] = Crate(found[0], line, tuple(needs.split()), is_test)

    def __getitem__(self, name: str) -> Crate:
        return self.all[name]

    def __iter__(self) -> Iterator[str]:
        return iter(self.all)

    def __len__(self) -> int:
        return len(self.all)

    def own(self, name: str) -> list[str]:
        """Those of the repository that a crate stands on."""
        return [it for it in self.all[name].needs if it in self.all]

    def up_to(self, top: str) -> "Crates":
        """A crate and all below it, in the order of the file."""
        if top not in self.all:
            raise Stop(f"crates.txt has no crate {top}")
        wanted, todo = {top}, [top]
        while todo:
            found = [it for it in self.own(todo.pop()) if it not in wanted]
            wanted |= {*found}
            todo += found
        part = Crates("")
        part.all = {name: it for name, it in self.all.items() if name in wanted}
        return part

    def lowest_first(self) -> list[str]:
        """The crates, each behind those that it stands on."""
        found: dict[str, None] = {}

        def add(name: str) -> None:
            if name not in found:
                for it in self.own(name):
                    add(it)
                found[name] = None

        for it in self.all:
            add(it)
        return [*found]

    def shown(self) -> list[str]:
        """Those that are neither of tests nor of measurements."""
        return [name for name, it in self.all.items() if not it.is_test and name not in OTHERS]

    def chain(self, minutes: Mapping[str, float]) -> float:
        """How long the longest chain of crates is, one upon the other, by the minutes that are left of each."""
        ends: dict[str, float] = {}
        for name in self.lowest_first():
            ends[name] = minutes.get(name, 0.0) + max((ends[it] for it in self.own(name)), default=0.0)
        return max(ends.values(), default=0.0)


def read_crates() -> Crates:
    return Crates(text_of("crates.txt"))
