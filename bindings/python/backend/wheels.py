"""Makes the wheel of the package: its files, the shared library beside them, and what pip wants to know. It needs Python 3.11 or later, nothing
else and no network; what it makes is the same bytes each time.

The library is that of the folder TIZULGECH_LIB_DIR, or of target/library, where `make library` builds it.
"""
import base64
import hashlib
import os
import sysconfig
import zipfile

try:
    import tomllib
except ImportError as fault:
    raise ImportError("the wheel is made by Python 3.11 or later; earlier ones install it") from fault

HERE = os.path.dirname(os.path.dirname(os.path.abspath(__file__)))
TOP = os.path.dirname(os.path.dirname(HERE))
LICENSES = ("LICENSE", "LICENSE-APACHE", "LICENSE-MIT")


def build_wheel(wheel_directory, config_settings=None, metadata_directory=None):
    """Makes it in a folder, and answers the file's name (PEP 517)."""
    project = _project()
    tag = f"py3-none-{sysconfig.get_platform().replace('-', '_').replace('.', '_')}"
    name = f"{project['name']}-{project['version']}"
    files = {**_package(project["name"]), **_about(f"{name}.dist-info", project, tag)}
    files[f"{name}.dist-info/RECORD"] = _record(files, f"{name}.dist-info/RECORD")
    wheel = f"{name}-{tag}.whl"
    with zipfile.ZipFile(os.path.join(wheel_directory, wheel), "w", zipfile.ZIP_DEFLATED) as it:
        for path, content in files.items():
            # A time and rights that are the same on every machine.
            entry = zipfile.ZipInfo(path, (1980, 1, 1, 0, 0, 0))
            entry.compress_type, entry.external_attr = zipfile.ZIP_DEFLATED, 0o100644 << 16
            it.writestr(entry, content)
    return wheel


def build_sdist(sdist_directory, config_settings=None):
    """There is none: what makes the library is this repository and its prover."""
    raise UnsupportedOperation("there is no source package, as the library is proved and built in its repository")


class UnsupportedOperation(Exception):
    """What a backend raises for a package that it doesn't make (PEP 517)."""


def _project():
    with open(os.path.join(HERE, "pyproject.toml"), "rb") as it:
        return tomllib.load(it)["project"]


def _read(*path):
    with open(os.path.join(*path), "rb") as it:
        return it.read()


def _package(name):
    """The files of the package, with the library beside them."""
    folder = os.path.join(HERE, name)
    files = {f"{name}/{it}": _read(folder, it) for it in sorted(os.listdir(folder)) if it.endswith((".py", ".typed"))}
    built, library = os.environ.get("TIZULGECH_LIB_DIR") or os.path.join(TOP, "target", "library"), "libtizulgech.so"
    if not os.path.isfile(os.path.join(built, library)):
        raise FileNotFoundError(f"there is no {os.path.join(built, library)}: run `make library`, or set TIZULGECH_LIB_DIR")
    return {**files, f"{name}/{library}": _read(built, library)}


def _about(folder, project, tag):
    """What a wheel says of itself."""
    head = [
        "Metadata-Version: 2.4", f"Name: {project['name']}", f"Version: {project['version']}", f"Summary: {project['description']}",
        f"License-Expression: {project['license']}", *(f"License-File: {it}" for it in LICENSES), f"Requires-Python: {project['requires-python']}",
        *(f"Classifier: {it}" for it in project["classifiers"]), "Description-Content-Type: text/markdown",
    ]
    about = "\n".join(head).encode() + b"\n\n" + _read(HERE, project["readme"])
    wheel = f"Wheel-Version: 1.0\nGenerator: {project['name']} ({project['version']})\nRoot-Is-Purelib: false\nTag: {tag}\n"
    licenses = {f"{folder}/licenses/{it}": _read(TOP, it) for it in LICENSES}
    return {f"{folder}/METADATA": about, f"{folder}/WHEEL": wheel.encode(), **licenses}


def _record(files, own):
    """Each file with its hash and its length, and the record itself with neither."""
    digest = lambda content: base64.urlsafe_b64encode(hashlib.sha256(content).digest()).rstrip(b"=").decode()
    lines = [f"{path},sha256={digest(content)},{len(content)}\n" for path, content in files.items()]
    return "".join([*lines, f"{own},,\n"]).encode()
