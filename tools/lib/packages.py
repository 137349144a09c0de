"""What is handed out: program, library and bindings, as files below a prefix and as an archive, the same bytes each time."""

import contextlib
import glob
import gzip
import hashlib
import importlib.util
import io
import os
import shutil
import subprocess
import tarfile
import tempfile
from collections.abc import Iterator
from typing import Any

from lib.commands import Stop
from lib.files import ROOT, bytes_of, text_of
from lib.manuals import files_of
from lib.programs import program_at

BUILT = f"{ROOT}/target/library"
# Where the bindings are, below a prefix.
BINDINGS = "share/tizulgech/bindings"
LICENSES = ("LICENSE", "LICENSE-APACHE", "LICENSE-MIT")
# A time that is the same on every machine: 1980, the first of January.
TIME = 315_532_800
# Files by their paths, below a prefix or a folder.
Files = dict[str, bytes]


def version() -> str:
    return text_of("VERSION").strip()


def need_library() -> None:
    if not os.path.isfile(f"{BUILT}/libtizulgech.a") or not os.path.isfile(f"{BUILT}/libtizulgech.so"):
        raise Stop("there is no target/library/libtizulgech.a: make library proves and builds it", 2)


def in_folder(folder: str, *patterns: str) -> Files:
    """The files of a folder of the repository with these names, by their paths in it."""
    found = sorted(path for it in patterns for path in glob.glob(f"{ROOT}/{folder}/{it}"))
    return {os.path.relpath(it, f"{ROOT}/{folder}"): bytes_of(os.path.relpath(it, ROOT)) for it in found if os.path.isfile(it)}


def below(folder: str, files: Files) -> Files:
    return {f"{folder}/{path}": content for path, content in files.items()}


# ---- program and library


def program_files() -> Files:
    """The proved program, its manual page and what shells complete of it."""
    program = program_at(None)
    with open(program, "rb") as it:
        own = {"bin/msthost": it.read()}
    return own | {path: text.encode() for path, text in files_of(program).items()}


def library_files() -> Files:
    """Both forms of the library, its header, and a package file that holds wherever the prefix is moved."""
    need_library()
    about = text_of("target/library/pkgconfig/tizulgech.pc").partition("\n\n")[2]
    places = "prefix=${pcfiledir}/../..\nlibdir=${prefix}/lib\nincludedir=${prefix}/include\n\n"
    built = {f"lib/{it}": bytes_of(f"target/library/{it}") for it in ("libtizulgech.a", "libtizulgech.so")}
    return built | {"include/tizulgech.h": bytes_of("bindings/c/tizulgech.h"), "lib/pkgconfig/tizulgech.pc": (places + about).encode()}


# ---- bindings


def wheel() -> Files:
    """The wheel, as the package's own backend makes it."""
    spec = importlib.util.spec_from_file_location("wheels", f"{ROOT}/bindings/python/backend/wheels.py")
    assert spec and spec.loader
    backend: Any = importlib.util.module_from_spec(spec)
    spec.loader.exec_module(backend)
    with tempfile.TemporaryDirectory(prefix="wheel-") as room, set_to("TIZULGECH_LIB_DIR", BUILT):
        name = backend.build_wheel(room)
        with open(f"{room}/{name}", "rb") as it:
            return {name: it.read()}


@contextlib.contextmanager
def set_to(name: str, value: str) -> Iterator[None]:
    """A variable of the environment that has this value meanwhile."""
    before = os.environ.get(name)
    os.environ[name] = value
    try:
        yield
    finally:
        os.environ.pop(name)
        if before is not None:
            os.environ[name] = before


def node_headers() -> str | None:
    """The folder of node_api.h, or None where node or its headers aren't here."""
    if not shutil.which("node") or not shutil.which("make") or not shutil.which(os.environ.get("CC", "cc")):
        return None
    asked = ["node", "-p", "require('path').resolve(process.execPath, '../../include/node')"]
    folder = os.environ.get("NODE_INCLUDE") or subprocess.run(asked, capture_output=True, text=True, check=True).stdout.strip()
    return folder if os.path.isfile(f"{folder}/node_api.h") else None


def addon() -> Files:
    """The built addon, without the paths of this machine; nothing where it can't be built."""
    headers = node_headers()
    if headers is None:
        print("node with its headers isn't here, so the package for Node has no built addon: npm builds it where it is installed")
        return {}
    with tempfile.TemporaryDirectory(prefix="addon-") as room:
        words = [f"TIZULGECH={BUILT}", f"NODE_INCLUDE={headers}", f"ADDON={room}/tizulgech.node", "CFLAGS=-O2", f"CC={os.environ.get('CC', 'cc')}"]
        around = {name: value for name, value in os.environ.items() if name not in ("MAKEFLAGS", "MFLAGS")}
        ran = subprocess.run(["make", "-s", "-C", f"{ROOT}/bindings/node", *words], env=around, capture_output=True, text=True)
        if ran.returncode:
            raise Stop(f"the addon for Node was not built: {ran.stderr.strip()[-300:]}")
        with open(f"{room}/tizulgech.node", "rb") as it:
            return {"tizulgech.node": it.read()}


def node_package() -> Files:
    """The package for Node as npm takes it, with the addon built."""
    files = in_folder("bindings/node", "index.js", "index.d.ts", "lib/*.js", "addon/*", "Makefile", "README.md", "package.json")
    files |= addon() | {it: bytes_of(it) for it in LICENSES}
    return {f"tizulgech-{version()}.tgz": archive_of(below("package", files))}


def bindings_files() -> Files:
    """The bindings: a crate, a wheel, a package for Node and a Go module, each with what it needs but the library, and the cases of all."""
    need_library()
    crate = in_folder("bindings/rust", "Cargo.toml", "Cargo.lock", "build.rs", "src/*.rs", "examples/small_host.rs")
    module = in_folder("bindings/go", "go.mod", "README.md", "*.go")
    parts = {"c": in_folder("bindings/c", "example.c"), "rust": crate, "python": wheel(), "node": node_package(), "go": module}
    files = {path: content for name, part in parts.items() for path, content in below(name, part).items()}
    return below(BINDINGS, files | in_folder("bindings", "cases.json"))


# ---- a prefix, and an archive


def put(prefix: str, files: Files) -> None:
    """Puts files below a prefix, each whole or not at all, with the folder in DESTDIR before it, and says where they are."""
    top = os.environ.get("DESTDIR", "") + os.path.abspath(prefix)
    for path, content in files.items():
        place = f"{top}/{path}"
        os.makedirs(os.path.dirname(place), exist_ok=True)
        with open(f"{place}.new", "wb") as it:
            it.write(content)
        os.chmod(f"{place}.new", rights(path))
        os.replace(f"{place}.new", place)
        print(place)


def rights(path: str) -> int:
    return 0o755 if path.startswith("bin/") or "/bin/" in path else 0o644


def archive_of(files: Files) -> bytes:
    """Files and their folders as a packed archive: in the order of their names, of one time and of owner 0."""
    folders = {path[:at] for path in files for at, letter in enumerate(path) if letter == "/"}
    packed = io.BytesIO()
    with gzip.GzipFile(filename="", mode="wb", fileobj=packed, mtime=0) as zipped, tarfile.open(mode="w", fileobj=zipped, format=tarfile.USTAR_FORMAT) as it:
        for path in sorted(folders | {*files}):
            entry = tarfile.TarInfo(path)
            entry.mtime, entry.mode = TIME, 0o755
            if path in folders:
                entry.type = tarfile.DIRTYPE
            else:
                entry.mode, entry.size = rights(path), len(files[path])
            it.addfile(entry, None if path in folders else io.BytesIO(files[path]))
    return packed.getvalue()


def sums_of(files: Files) -> bytes:
    """The lines that `sha256sum --check` reads."""
    return "".join(f"{hashlib.sha256(files[path]).hexdigest()}  {path}\n" for path in sorted(files)).encode()


def archive_files() -> Files:
    """All that the archive has, in its one folder."""
    about = text_of("bindings/ARCHIVE.md").replace("VERSION", version())
    files = program_files() | library_files() | bindings_files() | {it: bytes_of(it) for it in LICENSES} | {"README.md": about.encode()}
    return below(archive_name(), files | {"SHA256SUMS": sums_of(files)})


def archive_name() -> str:
    return f"tizulgech-{version()}-x86_64-linux"
