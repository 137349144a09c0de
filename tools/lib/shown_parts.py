"""What the archive's README shows of a shell, part by part, run where its files lie, without the toolchain and in a home of its own."""

import os
import re
import shutil

from lib.files import text_of, write
from lib.packages import node_headers
from lib.trials import Trials

README = "bindings/ARCHIVE.md"
# What each part needs, and which Debian package has that.
NEEDED: dict[str, dict[str, str]] = {
    "Sums": {"sha256sum": "coreutils"},
    "Program": {},
    "C": {"cc": "gcc", "pkg-config": "pkg-config"},
    "Rust": {"cargo": "cargo, 1.85 or later"},
    "Python": {"python3": "python3-venv"},
    "Node": {"node": "nodejs", "npm": "npm"},
    "Go": {"go": "golang-go", "cc": "gcc", "pkg-config": "pkg-config"},
}
# What each says: the root of the one record that it puts, or something else.
ROOT_OF_ONE = r"^bafyrei[a-z2-7]{52}$"
WANTED = {"Sums": r"\A\Z", "Program": r"^found bafyrei", "C": "", "Rust": ROOT_OF_ONE, "Python": ROOT_OF_ONE, "Node": ROOT_OF_ONE, "Go": ROOT_OF_ONE}
# What says where this repository's library is, or what a call of make gives to those in it.
OWN = ("TIZULGECH", "PKG_CONFIG", "LD_", "PYTHON", "MAKE", "MFLAGS", "CARGO_TARGET", "NODE_", "DESTDIR")


def parts_of(readme: str) -> dict[str, str]:
    """The blocks of a shell, by the heading that they stand under."""
    parts = re.split(r"^## (.*)\n", readme, flags=re.M)
    shown = {name: re.findall(r"^```sh\n(.*?)^```", text, re.M | re.S) for name, text in zip(parts[1::2], parts[2::2])}
    return {name: "".join(blocks) for name, blocks in shown.items() if blocks}


def around(home: str) -> dict[str, str]:
    """An environment without the toolchain, without what says where this repository's library is, and with another home."""
    path = [it for it in os.environ["PATH"].split(":") if not os.path.isfile(f"{it}/rt")]
    found = {name: value for name, value in os.environ.items() if not name.startswith(OWN)}
    found |= {"PATH": ":".join(path), "HOME": home, "GOPATH": f"{home}/go", "GOCACHE": f"{home}/go-build", "npm_config_cache": f"{home}/npm"}
    # rustup finds the compiler below the home that it was installed in.
    for name, folder in (("RUSTUP_HOME", ".rustup"), ("CARGO_HOME", ".cargo")):
        own = os.environ.get(name) or os.path.expanduser(f"~/{folder}")
        found |= {name: own} if os.path.isdir(own) else {}
    return found


class Apart(Trials):
    """Commands that are tried in such an environment, and nothing else of this process's."""

    def __init__(self, folder: str, home: str) -> None:
        super().__init__(folder)
        self.around = around(home)


def try_parts(tried: Trials, room: str, names: list[str]) -> None:
    """Runs these parts in the folder of the trials, each in a shell that ends at what fails; what isn't here is said and passed over."""
    parts, path = parts_of(text_of(README)), tried.around["PATH"]
    tried.holds("the parts of the README are those that are known", [*parts] == [*NEEDED])
    for name in names:
        missing = [f"{it} (on Debian, {package})" for it, package in NEEDED[name].items() if not shutil.which(it, path=path)]
        missing += ["node_api.h (on Debian, libnode-dev)"] if name == "Node" and not missing and node_headers() is None else []
        if missing:
            print(f"{' and '.join(missing)} isn't here, so the part {name} of the README was not tried")
            continue
        write(f"{room}/{name}.sh", parts[name])
        tried.run(["sh", "-e", f"{room}/{name}.sh"], WANTED[name])
