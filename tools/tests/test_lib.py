"""The package lib: crates.txt, edits, copies, the model, trees, times, progress."""

import contextlib
import io
import os
import random
import subprocess
import sys
import tempfile
import time
import unittest

from lib import commands, copies, crates, edits, exports, model, times
from lib.files import ROOT, bytes_of, text_of, write
from lib.made_exports import KINDS, SLOW, made_export, slow_export, usual_export
from lib.made_input import made_puts, made_script, two_listings
from lib.progress import Progress, told
from lib.trees import SHARED, Faulty, Tree, drawn, shared_by, side_by_side

TXT = """\
# a comment
top may_wait=2: middle other kit_crate  # another
low:
middle: low
other: low
archive staticlib: low
bench: low
# tests
top_tests tests_may=Wait: top
"""


class CratesTest(unittest.TestCase):
    def setUp(self) -> None:
        self.all = crates.Crates(TXT)

    def test_lines(self) -> None:
        self.assertEqual([*self.all], ["top", "low", "middle", "other", "archive", "bench", "top_tests"])
        self.assertEqual(self.all["top"].needs, ("middle", "other", "kit_crate"))
        self.assertEqual(self.all.own("top"), ["middle", "other"])
        self.assertEqual([it for it in self.all if self.all[it].is_test], ["top_tests"])
        self.assertEqual([it for it in self.all if self.all[it].is_static], ["archive"])
        self.assertEqual(self.all.shown(), ["top", "low", "middle", "other", "archive"])

    def test_up_to(self) -> None:
        self.assertEqual([*self.all.up_to("top")], ["top", "low", "middle", "other"])
        with self.assertRaisesRegex(commands.Stop, "no crate nosuch"):
            self.all.up_to("nosuch")

    def test_order_and_chain(self) -> None:
        order = self.all.lowest_first()
        self.assertTrue(all(order.index(dep) < order.index(it) for it in order for dep in self.all.own(it)))
        self.assertEqual(self.all.chain({"low": 1, "middle": 5, "other": 2, "top": 3}), 9)

    def test_own_file(self) -> None:
        found = crates.read_crates()
        self.assertEqual(sorted(found), copies.all_crates())
        self.assertTrue({it for name in found for it in found.own(name)} <= {*found})


class EditsTest(unittest.TestCase):
    def test_pairs(self) -> None:
        pair = edits.pairs_of("what: a\nfile: src/lib.rt\nold: a\nnew: b\nold: c\nnew:\n")
        self.assertEqual(pair, [edits.Pair("src/lib.rt", "a", "b"), edits.Pair("src/lib.rt", "c", "")])
        for text in ("", "old: a\nnew: b", "file: ../x\n", "file: src/lib.rt\nnew: b", "file: docs/x"):
            with self.assertRaises(edits.BadEdit):
                edits.pairs_of(text)

    def test_applied(self) -> None:
        with tempfile.TemporaryDirectory() as room:
            write(f"{room}/src/lib.rt", "one two two\n")
            pair = edits.Pair("src/lib.rt", "one", "two")
            self.assertEqual(edits.applied(room, [pair, edits.Pair("src/lib.rt", "two two two", "x")]), {"src/lib.rt": "x\n"})
            for bad in (edits.Pair("src/lib.rt", "two", "x"), edits.Pair("src/lib.rt", "z", "x"), edits.Pair("src/no.rt", "z", "x")):
                with self.assertRaises(edits.BadEdit):
                    edits.applied(room, [bad])


class CopiesTest(unittest.TestCase):
    def test_copy(self) -> None:
        with tempfile.TemporaryDirectory() as top:
            copies.copy_crates(f"{top}/copy", ["counts", "spec"], "counts:\nspec:\n")
            self.assertEqual(sorted(os.listdir(f"{top}/copy")), [".git", "HANDLES", "crates", "crates.txt"])
            self.assertEqual(sorted(os.listdir(f"{top}/copy/crates")), ["counts", "spec"])
            inside = {*os.listdir(f"{top}/copy/crates/spec")}
            self.assertFalse(inside & {"must-fail", "more-edits"})
            self.assertTrue({"src", "specs", "proofs"} <= inside)


class ModelTest(unittest.TestCase):
    def test_tree_is_the_references(self) -> None:
        for name in ("small", "repository"):
            listing = bytes_of(f"examples/{name}.txt")
            reference = [sys.executable, f"{ROOT}/examples/reference.py"]
            wanted = subprocess.run(reference, input=listing, stdout=subprocess.PIPE, check=True).stdout
            self.assertEqual(model.tree(listing), model.Ended(0, wanted, b""))
        self.assertEqual(model.tree(b"").out.split(b"\n")[0], b"bafyreie5737gdxlw5i64vzichcalba3z2v5n6icifvx5xytvske7mr3hpm")

    def test_layers(self) -> None:
        known = {b"2653ae71": 0, b"blue": 1, b"app.bsky.feed.post/454397e440ec": 4, b"app.bsky.feed.post/9adeb165882c": 8}
        self.assertEqual({key: model.layer(key) for key in known}, known)

    def test_faults(self) -> None:
        known = {b"a0": None, b"80": "NotAMap", b"a": "", b"a161610a": None, b"a1": "BadRecord(Truncated)", b"a0a0": "BadRecord(Trailing)"}
        known |= {b"a16161f97e00": "BadRecord(Float)", b"a1616118": "BadRecord(Truncated)", b"a161611801": "BadRecord(LongHead)"}
        for digits, wanted in known.items():
            record = model.hex_of(digits)
            self.assertEqual(model.fault_of_record(record) if record is not None else "", wanted, digits)
        self.assertEqual(model.car(b"a/b a0\na b\n", b"2222222222222"), model.refused("BadLine", 2))
        self.assertEqual(model.car(b"a a0\n", b"2222222222222"), model.refused("BadKey", 1))

    def test_script(self) -> None:
        said = model.run(1, 1, b"0 0 2222222222222 put a/b a0\n0 0 get a/b\n0 0 2222222222222 put a/b a0\n0 0 get a/c\n")
        self.assertEqual(said.out.decode().splitlines()[:4], ["1 ok 1", "2 found a0", "3 refused 0 RevOrder", "4 none"])
        self.assertEqual(model.run(1, 1, b"x\n"), model.refused("BadScript", 1))
        # What a script of a refused batch leaves is what it leaves without that line.
        self.assertEqual(said.out.decode().splitlines()[4:], model.run(1, 1, b"0 0 2222222222222 put a/b a0\n").out.decode().splitlines()[1:])

    def test_made_input_is_the_same_by_its_seed(self) -> None:
        self.assertEqual(made_script(random.Random(3)), made_script(random.Random(3)))
        self.assertNotEqual(made_puts(random.Random(3)), made_puts(random.Random(4)))


class ExportsTest(unittest.TestCase):
    def setUp(self) -> None:
        self.file = bytes_of("examples/export.car")

    def told(self, file: bytes) -> str:
        return exports.answer(["check"], file).err.decode().removeprefix("msthost: ").rstrip()

    def test_example(self) -> None:
        found = exports.export_in(self.file)
        self.assertEqual((found.did, found.rev, len(found.records)), (b"did:web:example.com", b"3jzfcijpj2z2e", 5))
        puts = exports.told(["records"], found)
        self.assertEqual(sorted(puts.splitlines()), sorted(bytes_of("examples/records.txt").splitlines()))
        self.assertEqual(model.tree(exports.told(["records", "--cids"], found)).out.splitlines()[0].decode(), model.text_of(found.root))
        signed, signature = exports.told(["commit"], found).decode().split()
        self.assertIn(exports.commit_bytes(found.did, found.rev, bytes.fromhex(signature), found.root, found.prev), self.file)
        self.assertEqual(signed[:2], "a5")

    def test_faults_of_the_form(self) -> None:
        self.assertEqual(self.told(self.file), "")
        self.assertEqual([self.told(self.file[:at]) for at in (0, 58, 59, 60, 1000)], ["Car(BadHeader)", "Car(BadHeader)", "NoCommit", "Car(BadLength)", "Car(Truncated)"])
        self.assertEqual(self.told(self.file + b"\0"), "Car(BadCid)")
        self.assertEqual(self.told(self.file + b"\x80\0"), "Car(BadLength)")
        self.assertEqual(self.told(self.file[:-1] + b"?"), "Misnamed")

    def test_numbers(self) -> None:
        for number in (0, 127, 128, 16384, 2**63 - 1):
            self.assertEqual(exports.number_at(model.varint(number), 0), (number, len(model.varint(number))))
        for faulty in (b"", b"\x80", b"\x80\0", 9 * b"\xff", model.varint(2**63)):
            with self.assertRaises(model.Fault):
                exports.number_at(faulty, 0)

    def test_usual_exports(self) -> None:
        found = exports.export_in(usual_export(random.Random(1), 50))
        self.assertEqual([len(record) for _, _, record in found.records], 50 * [288])
        self.assertEqual(len({key for key, _, _ in found.records}), 50)

    def test_slow_exports(self) -> None:
        for make in SLOW:
            blocks = make(300)
            with self.assertRaisesRegex(model.Fault, "^NotTheTree$"):
                exports.export_in(slow_export(blocks))
            self.assertEqual([len(exports.node_in(it).entries) for it in blocks if it][0], 300)

    def test_two_listings(self) -> None:
        for keys, changes in ((1, 1), (40, 7), (40, 40), (3, 9), (5, 0)):
            parts = two_listings(random.Random(1), keys, changes).split(b"\n\n")
            old, new = (dict(line.rsplit(b" ", 1) for line in part.split(b"\n") if line) for part in parts)
            self.assertEqual(len(old), keys)
            self.assertEqual(sum(old.get(key) != new.get(key) for key in {*old, *new}), min(keys, changes))

    def test_made_exports_are_the_same_by_their_seed(self) -> None:
        for number in (0, len(KINDS) - 1, len(KINDS)):
            self.assertEqual(made_export(random.Random(3), number), made_export(random.Random(3), number))
        self.assertNotEqual(made_export(random.Random(3), 0), made_export(random.Random(4), 0))


class TreesTest(unittest.TestCase):
    def setUp(self) -> None:
        self.text = model.tree(bytes_of("examples/small.txt")).out.decode()

    def test_reads_what_the_model_writes(self) -> None:
        tree = Tree(self.text)
        self.assertEqual((len(tree.pairs), len(tree.nodes), tree.top), (21, 10, 2))
        picture = drawn(tree, "A tree")
        self.assertEqual(sum("<rect" in it for it in picture.parts), 10)
        self.assertLess(picture.width, 1000)
        self.assertIn("raven", picture.svg())

    def test_faults(self) -> None:
        lines = self.text.splitlines()
        other = "\n".join([lines[0], lines[1].replace(" a2", " a3"), *lines[2:]])
        for text in ("", "\n", "x", f"{lines[0]}\n", other, "\n".join(lines[:-1]), "bafy zz\n"):
            with self.assertRaises(Faulty, msg=text[:80]):
                Tree(text)
        with self.assertRaises(Faulty):
            Tree(self.text, bits=1)

    def test_side_by_side(self) -> None:
        lines = bytes_of("examples/small.txt").splitlines(keepends=True)
        tree, empty = Tree(self.text), Tree(model.tree(b"").out.decode())
        other = Tree(model.tree(b"".join(lines[:-1])).out.decode())
        shared = {*tree.nodes} & {*other.nodes}
        self.assertGreater(len(shared), 3)
        text = side_by_side(tree, other, "Two").svg()
        told = (f"{len(tree.nodes) - len(shared)} nodes of the old tree alone", f"{len(other.nodes) - len(shared)} nodes of the new tree alone", f"{len(shared)} nodes of both")
        self.assertTrue(all(it in text for it in told), told)
        # Three boxes of what the colours are; a shared node's is drawn in both trees.
        self.assertEqual(text.count(f'fill="{SHARED[0]}"'), 2 * len(shared) + 1)
        self.assertEqual(text.count("font-weight"), 4)
        self.assertIn("10 nodes of both", side_by_side(tree, tree, "Same").svg())
        for one, two in ((tree, empty), (empty, tree)):
            self.assertIn("0 nodes of both", side_by_side(one, two, "All").svg())

    def test_no_keys_and_many(self) -> None:
        self.assertIn("0 keys in 1 node", drawn(Tree(model.tree(b"").out.decode()), "Empty").svg())
        many = drawn(Tree(model.tree(bytes_of("examples/repository.txt")).out.decode()), "Many").svg()
        self.assertIn("rotate(-90", many)
        self.assertEqual(shared_by([b"a/b/c", b"a/b/d", b"a/x"]), b"a/")


class TimesTest(unittest.TestCase):
    def test_run(self) -> None:
        about = {"commit": "aa", "date": "d", "kit": "k", "machine": "m", "said": "1 passed, 0 failed", "took": "1 min 2 s"}
        run = times.Run(about, {"low": times.Times(1.0, 0.0, 2.04, 3, "aa"), "top": times.Times(2.0, 1.0, 0.0, 0, "bb")})
        self.assertEqual(times.run_in(run.text()), run)
        table = times.table(run, ["low", "other", "top"])
        self.assertIn("| `low` | 1.0 |  | 2.0 | 3.0 | 3 |\n", table)
        self.assertIn("| **in all** | 3.0 | 1.0 | 2.0 | 6.0 | 3 |\n", table)
        self.assertIn("Those of 1 crates are of other runs.", times.told(run))
        self.assertTrue(times.told(run, ["low", "other", "top"]).endswith("Not measured so far: `other`.\n"))

    def test_own_file(self) -> None:
        run, known = times.read_run(), crates.read_crates()
        self.assertTrue(run.crates)
        lacking = [it for it in known if it not in run.crates]
        self.assertLess(len(lacking), len(known) / 4, "measure the gate anew")


class ProgressTest(unittest.TestCase):
    def progress(self) -> Progress:
        return Progress(crates.Crates(TXT).up_to("top"), {"low": 1.0, "middle": 5.0, "other": 2.0, "top": 3.0}, cores=4)

    def test_left_is_the_longest_chain(self) -> None:
        progress = self.progress()
        self.assertAlmostEqual(progress.left(), 9.0, places=1)
        self.assertEqual(progress.at_work(), ["low"])
        with contextlib.redirect_stdout(io.StringIO()):
            progress.done("low", is_kept=True)
        self.assertAlmostEqual(progress.left(), 8.0, places=1)
        self.assertEqual(progress.at_work(), ["middle", "other"])
        # What a crate has been at is taken off, and a tenth of it stays at least.
        progress.began -= 3600
        progress.ended["low"] = time.monotonic() - 240
        self.assertAlmostEqual(progress.left(), 4.0, places=1)
        progress.ended["low"] = time.monotonic() - 2400
        self.assertAlmostEqual(progress.left(), 3.5, places=1)

    def test_few_cores(self) -> None:
        self.assertAlmostEqual(Progress(crates.Crates(TXT).up_to("top"), dict.fromkeys(("low", "middle", "other", "top"), 1.0), cores=1).left(), 4.0, places=1)

    def test_told(self) -> None:
        said = io.StringIO()
        with contextlib.redirect_stdout(said):
            progress = self.progress()
            progress.done("low", is_kept=True)
            progress.waits(os.getpid())
        self.assertRegex(said.getvalue(), r"1 of 4 +0:00  low +kept   about 8 minutes are left\n +0:00  at work: middle \(0 min\), other \(0 min\); about 8")
        self.assertEqual([told(it) for it in (0.1, 1.2, 7.6)], ["some seconds are left", "about a minute is left", "about 8 minutes are left"])
