"""What the tests share."""

import importlib.machinery
import importlib.util
import os
import stat
import subprocess
import sys
from types import ModuleType

from lib.files import ROOT

# A program that answers as the plain model does, and says of itself what a clap program says.
MODEL = f"""#!{sys.executable}
import sys
sys.path.insert(0, {ROOT + "/tools"!r})
from tests.model_program import main
main()
"""


def command(name: str) -> ModuleType:
    """A command of tools/, as a module."""
    loader = importlib.machinery.SourceFileLoader(name.replace("-", "_"), f"{ROOT}/tools/{name}")
    spec = importlib.util.spec_from_loader(loader.name, loader)
    assert spec
    found = importlib.util.module_from_spec(spec)
    sys.modules[loader.name] = found
    loader.exec_module(found)
    return found


def program(path: str, text: str = MODEL) -> str:
    """Writes a program, and answers its path."""
    with open(path, "w", encoding="utf-8") as it:
        it.write(text)
    os.chmod(path, os.stat(path).st_mode | stat.S_IXUSR)
    return path


def ran(name: str, *words: str, given: str = "", folder: str = ROOT, around: dict[str, str] | None = None) -> subprocess.CompletedProcess[str]:
    """A run of a command of tools/."""
    env = {**os.environ, **(around or {})}
    return subprocess.run([f"{ROOT}/tools/{name}", *words], input=given, capture_output=True, text=True, cwd=folder, env=env)
