"""What `rt ci` proves of a copy of some crates is built: a program as target/NAME, a static library as target/libNAME.a."""

import hashlib
import os
import re
import shutil
import tempfile
import time

from lib import toolchain
from lib.commands import Stop
from lib.copies import EDITS, copy_crates
from lib.crates import Crates
from lib.files import ROOT, read, write
from lib.progress import Progress, clock, lines_of

LOG = f"{ROOT}/target/build.log"


def sum_of(crates: Crates) -> str:
    """A sum of all that a program is made of: the toolchain, and these crates' files."""
    total = hashlib.sha256(toolchain.version().encode())
    total.update(repr([it.line for it in crates.values()]).encode())
    for name in crates:
        folder = f"{ROOT}/crates/{name}"
        for at, folders, files in os.walk(folder):
            folders[:] = sorted(it for it in folders if at != folder or it not in (*EDITS, "out"))
            for file in sorted(files):
                with open(f"{at}/{file}", "rb") as it:
                    total.update(repr((os.path.relpath(at, ROOT), file, it.read())).encode())
    return total.hexdigest()


def made_of(crates: Crates, top: str) -> str | None:
    """What is made of a crate, or None of a library for other crates."""
    if os.path.isfile(f"{ROOT}/crates/{top}/src/main.rt"):
        return top
    return f"lib{top}.a" if crates[top].is_static else None


def is_built(made: str, crates: Crates) -> bool:
    place = f"{ROOT}/target/{made}"
    return os.path.isfile(place) and os.path.isfile(f"{place}.sum") and read(f"{place}.sum") == sum_of(crates)


def proved(room: str, crates: Crates) -> bool:
    """Has rt ci prove the copy, says how it goes on, and answers whether all is proved."""
    progress, last = Progress(crates), ""
    os.makedirs(os.path.dirname(LOG), exist_ok=True)
    with open(LOG, "w", encoding="utf-8") as log, toolchain.running(["rt", "ci"], room) as ran:
        for line in lines_of(ran):
            if line is None:
                progress.waits(ran.pid)
                continue
            log.write(line)
            log.flush()
            said = re.match(r"rt: (\w+) (proved$|is kept: )", line)
            if said and said[1] in crates:
                progress.done(said[1], said[2] != "proved")
            elif re.match(r"rt: (ok; |FAILED|\w+ NOT PROVED)|\d+ passed, ", line):
                last = line.strip()
        status = ran.wait()
    print(f"  {last}", flush=True)
    return status == 0 and last.endswith(" 0 failed")


def words_of_archive(room: str, crates: Crates, top: str) -> list[str]:
    """What rattle is asked for the static library of a crate over those that rt ci proved in the folder."""
    kit = toolchain.kit()
    words = [f"{kit}/bin/rattle", "build", "--crate-name", top, "src/lib.rt", "--crate-type", "staticlib"]
    for name in ("std", *crates[top].needs):
        rlib = f"{room}/crates/{name}/out/rlib" if name in crates else f"{kit}/rlibs"
        words += ["--extern", f"{name}={rlib}/{name}.rlib"]
    words += ["-L", f"dependency={kit}/rlibs"]
    for name in crates:
        words += ["-L", f"dependency={room}/crates/{name}/out/rlib"] if name != top else []
    words += ["--antt-project", f"{kit}/rattle/logic/antt-project.json", "--logic-built", f"{kit}/logic_built", "--links", f"{top}="]
    return [*words, "--toolchain", f"{kit}/toolchain", "-o", f"{room}/lib{top}.a"]


def archive(room: str, crates: Crates, top: str) -> bool:
    """Has rattle make the static library of a crate, and answers whether it could."""
    began = time.monotonic()
    print(f"  The archive: rattle checks {top} once more for it, alone, by one processor.", flush=True)
    with open(LOG, "a", encoding="utf-8") as log, toolchain.running(words_of_archive(room, crates, top), f"{room}/crates/{top}") as ran:
        for line in lines_of(ran):
            if line is None:
                print(f"  {'':8}  {clock(time.monotonic() - began):>5}  at work: the archive of {top}", flush=True)
            else:
                log.write(line)
                log.flush()
        return ran.wait() == 0


def build(every: Crates, top: str) -> bool:
    """Proves a crate with all that it stands on and builds what is made of it; answers whether it is there."""
    crates = every.up_to(top)
    made = made_of(crates, top)
    toolchain.need_rt()
    if made and is_built(made, crates):
        print(f"target/{made} is there, proved with all {len(crates)} crates that it is made of.")
        return True
    whole = Progress(crates).left()
    print(f"Proving {top} and what it stands on, {len(crates)} in all: from nothing some {max(round(whole), 1)} minutes.")
    print("A line has the time, the crate, and how long its proof took.", flush=True)
    before = sum_of(crates)
    with tempfile.TemporaryDirectory(prefix="proved-") as room:
        copy = f"{room}/copy"
        copy_crates(copy, crates, "".join(f"{it.line}\n" for it in crates.values()))
        if not proved(copy, crates) or crates[top].is_static and not archive(copy, crates, top):
            raise Stop(f"{top} was not proved; target/build.log says why")
        if made:
            to = f"{ROOT}/target/{made}"
            shutil.copy(f"{copy}/{made}" if crates[top].is_static else f"{copy}/crates/{top}/out/{top}", f"{to}.new")
            os.replace(f"{to}.new", to)
            write(f"{to}.sum", before)
            print(f"What was proved is built as target/{made}.")
    return True
