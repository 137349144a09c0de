"""The commands: what each says of a faulty word, a missing file and an empty input, and what it does on something small."""

import contextlib
import glob
import io
import json
import os
import random
import re
import shutil
import subprocess
import tarfile
import tempfile
import unittest
import unittest.mock

from lib.exports import NAMES
from lib.files import ROOT, bytes_of, read, text_of, write
from lib.made_exports import KINDS, SLOW
from lib.manuals import faults_of, files_of, helps_of
from lib.model import Ended, tree
from lib.packages import BINDINGS, TIME, archive_of, put, sums_of
from lib.programs import Outcome
from lib.shown_parts import NEEDED, README, WANTED, around, parts_of
from tests.model_program import answer
from tests.support import command, program, ran

COMMANDS = sorted(it for it in os.listdir(f"{ROOT}/tools") if os.access(f"{ROOT}/tools/{it}", os.X_OK) and os.path.isfile(f"{ROOT}/tools/{it}"))
IN_PYTHON = [it for it in COMMANDS if text_of(f"tools/{it}").startswith("#!/usr/bin/env python3")]
# What each is given that it can't do anything with.
FAULTY: dict[str, list[str]] = {
    "baseline": ["exports", "--program", "nosuch"],
    "bench": ["--program", "nosuch"],
    "build": ["nosuch"],
    "compare-runs": ["nosuch"],
    "draw-pictures": ["nosuch"],
    "draw-tree": ["nosuch"],
    "edits": ["nosuch"],
    "gate-times": ["--functions", "nosuch"],
    "install": ["--test", "nosuch"],
    "readme-example": ["--run", "nosuch"],
    "refuse-memory": ["nosuch"],
    "repeat-tests": ["nosuch"],
    "written-answers": ["nosuch"],
}


class FaultsTest(unittest.TestCase):
    def test_help(self) -> None:
        for name in IN_PYTHON:
            if "parser_of" in text_of(f"tools/{name}"):
                said = ran(name, "--help")
                self.assertEqual((said.returncode, said.stderr), (0, ""), name)
                self.assertIn("usage: ", said.stdout)

    def test_unknown_words(self) -> None:
        for name in IN_PYTHON:
            if "parser_of" in text_of(f"tools/{name}"):
                said = ran(name, "--no-such-option")
                self.assertEqual(said.returncode, 2, name)
                self.assertNotIn("Traceback", said.stderr)

    def test_one_line(self) -> None:
        for name, words in FAULTY.items():
            with tempfile.TemporaryDirectory() as room:
                said = ran(name, *words, folder=room)
            self.assertIn(said.returncode, (1, 2), name)
            self.assertEqual(said.stdout, "", name)
            self.assertRegex(said.stderr, rf"\Atools/{name}: [^\n]+\n\Z", name)

    def test_without_rt(self) -> None:
        around = {"PATH": "/usr/bin:/bin"}
        if shutil.which("rt", path=around["PATH"]):
            self.skipTest("rt stands where it is always found")
        for name in ("demo", "edits", "must-not-compile", "written-answers"):
            words = ["cid"] if name == "written-answers" else []
            said = subprocess.run([shutil.which("python3") or "python3", f"{ROOT}/tools/{name}", *words], capture_output=True, text=True, env=around)
            self.assertEqual((said.returncode, said.stderr), (2, f"tools/{name}: rt, of the Rattle toolchain, is not on the path\n"))


class DrawTreeTest(unittest.TestCase):
    def setUp(self) -> None:
        self.tree = subprocess.run(["python3", f"{ROOT}/examples/reference.py"], input=text_of("examples/small.txt"), capture_output=True, text=True).stdout

    def test_small(self) -> None:
        said = ran("draw-tree", "examples/small.txt", given=self.tree)
        self.assertEqual((said.returncode, said.stderr), (0, ""))
        self.assertTrue(said.stdout.startswith("<svg ") and said.stdout.endswith("</svg>\n"))

    def test_faulty_input(self) -> None:
        for given in ("", "x\n", self.tree[:-4], self.tree.replace("\n", "\nx", 1)):
            said = ran("draw-tree", "examples/small.txt", given=given)
            self.assertEqual((said.returncode, said.stdout), (1, ""))
            self.assertRegex(said.stderr, r"\Atools/draw-tree: [^\n]+\n\Z")
        said = ran("draw-tree", "examples/script.txt", given=self.tree)
        self.assertRegex(said.stderr, r"\Atools/draw-tree: line 1 of the listing [^\n]+\n\Z")

    def test_two(self) -> None:
        with tempfile.TemporaryDirectory() as room:
            shorter = "".join(text_of("examples/small.txt").splitlines(keepends=True)[1:])
            write(f"{room}/new", shorter)
            new = tree(shorter.encode()).out.decode()
            said = ran("draw-tree", "examples/small.txt", f"{room}/new", given=self.tree + new)
            self.assertEqual((said.returncode, said.stderr), (0, ""))
            self.assertIn("The trees of small.txt and new", said.stdout)
            for given in (self.tree, new + self.tree, self.tree + new + new, self.tree + self.tree):
                said = ran("draw-tree", "examples/small.txt", f"{room}/new", given=given)
                self.assertEqual((said.returncode, said.stdout), (1, ""))
                self.assertRegex(said.stderr, r"\Atools/draw-tree: [^\n]+\n\Z")


class ByModelTest(unittest.TestCase):
    """What runs msthost, over a program that answers as the model does."""

    def setUp(self) -> None:
        room = tempfile.TemporaryDirectory()
        self.addCleanup(room.cleanup)
        self.room = room.name
        self.program = program(f"{self.room}/model")

    def test_compare_runs(self) -> None:
        said = ran("compare-runs", self.program, "2", "--exports", "2", "--messages", "0")
        self.assertEqual((said.returncode, said.stdout.splitlines()[-2:]), (0, ["4 exports: none 2, Commit(BadDid) 2", "2 rounds, 0 wrong"]), said.stdout)
        wrong = program(f"{self.room}/wrong", "#!/bin/sh\nexit 0\n")
        said = ran("compare-runs", wrong, "1", "--exports", "2", "--messages", "0", around={"TMPDIR": self.room})
        self.assertEqual((said.returncode, said.stdout.splitlines()[-1]), (1, "1 rounds, 1 wrong"))

    def test_exports_of_all_kinds(self) -> None:
        compared = command("compare-runs")
        compared.outcome = lambda program, words, given: Outcome(*answer(words, given))  # type: ignore[attr-defined]
        rounds = compared.Rounds("", len(KINDS), 0)
        self.assertTrue(rounds.round(random.Random(1)))
        self.assertEqual({*rounds.reached}, {"none", *NAMES})
        for found in (answer(["check"], b""), Ended(0, b"", b"")):
            compared.outcome = lambda program, words, given: Outcome(*found)  # type: ignore[attr-defined]
            with contextlib.redirect_stdout(io.StringIO()) as said:
                self.assertFalse(rounds.export(random.Random(1), bytes_of("examples/export.car")))
            os.remove(said.getvalue().splitlines()[0].rpartition(" < ")[2])

    def test_files_that_are_made_to_be_slow(self) -> None:
        said = ran("baseline", "slow", "200", "1", "--program", self.program)
        self.assertRegex(said.stdout, r"\Ausual: \d+ bytes, .*\n(links|long) .*: \d+ bytes, .*, ratio ", said.stderr)
        self.assertEqual(len(said.stdout.splitlines()), 1 + len(SLOW))
        wrong = program(f"{self.room}/wrong", "#!/bin/sh\necho msthost: Misnamed >&2\nexit 1\n")
        said = ran("baseline", "slow", "20", "1", "--program", wrong)
        self.assertEqual((said.returncode, said.stderr), (1, "tools/baseline: it is to be Car(BadHeader), and not msthost: Misnamed\n"))

    def test_a_fault_may_be_explained(self) -> None:
        is_told = command("compare-runs").is_told
        wanted = b"msthost: line 1: BadLine\n"
        for err in (wanted, b"msthost: line 1: BadLine: it isn't a key, a space and a record\n"):
            self.assertTrue(is_told(err, wanted))
        for err in (b"", b"msthost: line 1: BadLines\n", b"msthost: line 2: BadLine\n"):
            self.assertFalse(is_told(err, wanted))
        self.assertFalse(is_told(wanted, b""))

    def test_pictures(self) -> None:
        said = ran("draw-pictures", "--compare", self.program)
        self.assertEqual((said.returncode, said.stdout), (0, "5 pictures, 0 otherwise\n"), said.stderr)

    def test_completions(self) -> None:
        installing = command("install")
        with contextlib.redirect_stdout(io.StringIO()):
            installing.install(f"{self.room}/prefix", self.program)
        wanted = {"msthost": {"tree", "prove-change", "explain", "help", "-h", "--help", "-V", "--version"}, "msthost prove-change": {"--bits", "-h", "--help"}}
        for shell, place in (("bash", "bash-completion/completions/msthost"), ("fish", "fish/vendor_completions.d/msthost.fish")):
            file = f"{self.room}/prefix/share/{place}"
            if shutil.which(shell):
                self.assertEqual(installing.faults_of_shell(shell, file, wanted), [])
                self.assertEqual(len(installing.faults_of_shell(shell, file, {"msthost": {"--nosuch"}})), 1)

    def test_page(self) -> None:
        if not shutil.which("groff"):
            self.skipTest("groff isn't here")
        installing, (_, helps) = command("install"), helps_of(self.program)
        page, told = files_of(self.program)["share/man/man1/msthost.1"], faults_of(self.program, helps)
        self.assertEqual([name for name, _ in told], ["BadLine", "BadRecord(Float)"])
        write(f"{self.room}/page", page)
        self.assertEqual(installing.faults_of_page(f"{self.room}/page", helps, told), [])
        write(f"{self.room}/page", page.replace("second", "third").replace("a number with a point", "a number"))
        self.assertEqual(len(installing.faults_of_page(f"{self.room}/page", helps, told)), 5)

    def test_zsh_shows_words_with_hyphens(self) -> None:
        shown = command("install").in_zsh("prove-change  Proves a change\r\n--no-such-flag  None\r\n\x1b[J-h tree  Prints\n")
        self.assertTrue({"prove-change", "--no-such-flag", "-h", "tree"} <= shown)

    def test_manual(self) -> None:
        made = files_of(self.program)
        self.assertEqual([*made], ["share/man/man1/msthost.1", "share/bash-completion/completions/msthost", "share/zsh/site-functions/_msthost", "share/fish/vendor_completions.d/msthost.fish"])
        self.assertIn(".SS prove\\-change", made["share/man/man1/msthost.1"])
        self.assertIn("    prove-change) words='--bits -h --help' ;;", made["share/bash-completion/completions/msthost"])


class ExamplesTest(unittest.TestCase):
    def test_calls_of_a_page(self) -> None:
        calls = command("readme-example").calls_of("docs/PROGRAM.md")
        self.assertTrue(any(it.startswith("msthost ") for it, _ in calls))
        self.assertTrue(all(it and not it.startswith("$") for it, _ in calls))

    def test_jobs(self) -> None:
        jobs = command("draw-pictures").jobs_in("| Job | Ratio | Aim |\n|---|---|---|\n| a | 1.1 to 1.3 | 1.2 |\n| b | | 2 |\n| c | 0.5 | |\n")
        self.assertEqual([(it.name, it.told, it.aim) for it in jobs], [("a", "1.10 to 1.30", 1.2), ("c", "0.50", None)])


class EditsTest(unittest.TestCase):
    def test_words_of_an_edit(self) -> None:
        faults = command("edits").faults_of_words
        self.assertEqual(faults("cid", "what: a\nbreaks: b\nin the gate: layer_not_divided rows/empty_node_kept\n"), [])
        self.assertEqual(len(faults("cid", "what: a\nbreaks:\n")), 1)
        self.assertEqual(len(faults("cid", "what: a\nbreaks: b\nin the gate: nosuch\n")), 1)


class VersionTest(unittest.TestCase):
    def test_places(self) -> None:
        version = command("version")
        with tempfile.TemporaryDirectory() as room:
            write(f"{room}/VERSION", "1.2.3\n")
            for place in version.PLACES:
                write(f"{room}/{place.path}", place.example.replace("{}", "1.2.3"))
            self.assertEqual(version.faults_in(room), [])
            for place in version.PLACES:
                write(f"{room}/{place.path}", place.example.replace("{}", "1.2.4"))
                self.assertEqual(len(version.faults_in(room)), 1, place)
                write(f"{room}/{place.path}", "nothing")
                self.assertEqual(len(version.faults_in(room)), 1, place)
                write(f"{room}/{place.path}", place.example.replace("{}", "1.2.3"))
            write(f"{room}/VERSION", "one\n")
            self.assertEqual(len(version.faults_in(room)), 1)


class DeclarationsTest(unittest.TestCase):
    """What is declared to Node is compared: a wrong line, number or name is told."""

    CHANGED = (
        ("addon/calls.def", "B(4), B(5), C(0)", "B(5), B(4), C(0)"),
        ("addon/calls.def", '"kfbb"', '"nfbb"'),
        ("addon/calls.def", "CALL(links, ", "CALL(other, "),
        ("addon/calls.c", "tizulgech_clear(R)", "0"),
        ("lib/tree.js", "'below'", "'links'"),
        ("lib/faults.js", "34: ['OTHER_ROOT'", "36: ['OTHER_ROOT'"),
        ("lib/faults.js", "  35: [", "  // 35: ["),
        ("lib/faults.js", "NONE = 24", "NONE = 25"),
        ("index.d.ts", " | 'NOT_BUILT'", ""),
        ("index.d.ts", "'CLOSED'", "'CLOSED' | 'SMALL'"),
    )

    def test_of_node(self) -> None:
        declarations = command("library-declarations")
        wanted, (numbers, _) = declarations.exports(), declarations.answers(declarations.library())
        told = lambda files: [*declarations.node_otherwise(wanted, files), *declarations.codes_otherwise(numbers, files)]
        files = declarations.node_files()
        self.assertEqual(told(files), [])
        for path, old, new in self.CHANGED:
            self.assertIn(old, files[path])
            self.assertTrue(told({**files, path: files[path].replace(old, new)}), (path, old))

    def test_of_go(self) -> None:
        declarations = command("library-declarations")
        wanted, (numbers, _) = declarations.exports(), declarations.answers(declarations.library())
        files = declarations.go_files()
        self.assertEqual([*declarations.go_otherwise(wanted, numbers, files)], [])
        for path, old, new in (("faults.go", 'add(34, "OTHER_ROOT"', 'add(36, "OTHER_ROOT"'), ("faults.go", '"NOT_TREE"', '"NO_TREE"'), ("trees.go", "C.tizulgech_below(", "C.tizulgech_links(")):
            self.assertIn(old, files[path])
            self.assertTrue([*declarations.go_otherwise(wanted, numbers, {**files, path: files[path].replace(old, new)})], (path, old))


class CasesTest(unittest.TestCase):
    def test_table(self) -> None:
        """The table is what the model says, and each fault stands in it."""
        self.assertEqual(ran("binding-cases", "--compare").returncode, 0)
        cases = command("binding-cases")
        table = json.loads(cases.made())
        self.assertEqual((table["faults"]["KEY_EXISTS"], table["calls"][0]["fault"]), (23, "TRUNCATED"))


    SOURCES = {"Rust": "rust/src/*.rs", "Python": "python/tizulgech/*.py", "Node": "node/index.d.ts", "Go": "go/*.go"}

    def test_names(self) -> None:
        """The table of names has each call of the header once, and names that each binding has."""
        _, *rows = [line.strip("|").split("|") for line in text_of("bindings/README.md").splitlines() if line.startswith("| ")]
        columns = [re.findall(r"`([\w.:]+)`", "".join(column)) for column in zip(*rows)]
        declared = command("library-declarations").exports()
        self.assertEqual(sorted(f"tizulgech_{it}" for it in columns[0]), sorted(declared))
        for names, (language, pattern) in zip(columns[1:], self.SOURCES.items()):
            sources = "".join(map(read, glob.glob(f"{ROOT}/bindings/{pattern}")))
            for name in names:
                self.assertRegex(sources, rf"\b{re.split('[.:]+', name)[-1]}\b", language)


class PackagesTest(unittest.TestCase):
    FILES = {"b/two": b"2", "b/a/one": b"1", "bin/run": b"#!/bin/sh\n"}

    def test_archive(self) -> None:
        """It is sorted, of one time and of nobody, whatever the order in which its files come."""
        packed = archive_of(self.FILES)
        self.assertEqual(packed, archive_of(dict(reversed(self.FILES.items()))))
        with tarfile.open(fileobj=io.BytesIO(packed)) as it:
            found = [(one.name, one.mode, one.uid, one.gid, one.uname, one.mtime, one.isdir()) for one in it]
            self.assertEqual(it.extractfile("b/a/one").read(), b"1")  # type: ignore[union-attr]
        alike = (0, 0, "", TIME)
        wanted = [("b", 0o755, True), ("b/a", 0o755, True), ("b/a/one", 0o644, False), ("b/two", 0o644, False), ("bin", 0o755, True), ("bin/run", 0o755, False)]
        self.assertEqual(found, [(name, mode, *alike, is_folder) for name, mode, is_folder in wanted])

    def test_sums(self) -> None:
        with tempfile.TemporaryDirectory() as room:
            with contextlib.redirect_stdout(io.StringIO()) as said:
                put(room, {**self.FILES, "SHA256SUMS": sums_of(self.FILES)})
            self.assertEqual(said.getvalue().split(), [f"{room}/{it}" for it in (*self.FILES, "SHA256SUMS")])
            seen = subprocess.run(["sha256sum", "--check", "--quiet", "SHA256SUMS"], cwd=room, capture_output=True, text=True)
            self.assertEqual((seen.returncode, seen.stdout), (0, ""))
            self.assertTrue(os.access(f"{room}/bin/run", os.X_OK))

    def test_readme(self) -> None:
        """The archive's README shows each part that is tried, and has no other files than the archive."""
        parts = parts_of(text_of(README))
        self.assertEqual([[*parts], [*NEEDED]], [[*WANTED], [*WANTED]])
        for name in re.findall(rf"{BINDINGS}/(\w+)", "".join(parts.values())):
            self.assertTrue(os.path.isdir(f"{ROOT}/bindings/{name}"), name)

    def test_apart(self) -> None:
        with tempfile.TemporaryDirectory() as room:
            write(f"{room}/rt", "")
            with unittest.mock.patch.dict(os.environ, {"TIZULGECH_LIB_DIR": "x", "MAKEFLAGS": "x", "PATH": f"{room}:{ROOT}/tools"}):
                found = around("/home/of/nobody")
        self.assertFalse({"TIZULGECH_LIB_DIR", "MAKEFLAGS"} & {*found})
        self.assertEqual((found["HOME"], found["PATH"]), ("/home/of/nobody", f"{ROOT}/tools"))
