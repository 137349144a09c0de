"""CIDs, writes, keys and stamps, and the versions."""
import hashlib
import os
import shutil
import subprocess
import sys
import tempfile
import unittest

import tizulgech as t

from support import DID, read, tid


class Values(unittest.TestCase):
    def test_versions(self):
        self.assertEqual(read("VERSION"), f"{t.__version__}\n")
        # a package for another interface than the library's isn't imported
        for number in (t.VERSION, t.VERSION + 1):
            with tempfile.TemporaryDirectory() as room:
                declared = os.path.join(shutil.copytree(os.path.dirname(t.__file__), os.path.join(room, "tizulgech")), "_declared.py")
                with open(declared, encoding="utf-8") as it:
                    source = it.read()
                with open(declared, "w", encoding="utf-8") as it:
                    it.write(source.replace(f"\nVERSION = {t.VERSION}\n", f"\nVERSION = {number}\n"))
                environment = {**os.environ, "TIZULGECH_LIBRARY": t._library.PATH, "PYTHONPATH": room}
                ran = subprocess.run([sys.executable, "-c", "import tizulgech; print(tizulgech.VERSION)"], cwd=room, env=environment, capture_output=True, text=True)
            wanted = (0, f"{number}\n", False) if number == t.VERSION else (1, "", True)
            self.assertEqual((ran.returncode, ran.stdout, "ImportError: " in ran.stderr), wanted, ran.stderr)

    def test_cids(self):
        empty = t.Cid.of(t.EMPTY_NODE)
        self.assertEqual(str(empty), "bafyreie5737gdxlw5i64vzichcalba3z2v5n6icifvx5xytvske7mr3hpm")
        self.assertEqual(t.Cid.parse(str(empty)), empty)
        self.assertRaises(ValueError, t.Cid.parse, "bafy")
        self.assertEqual(empty.bytes[4:], hashlib.sha256(t.EMPTY_NODE).digest())
        blocks = [b"%d" % n * (n % 200) for n in range(1000)]
        self.assertEqual(t.Cid.of_each(blocks), [t.Cid.of(it) for it in blocks])
        self.assertEqual(t.Cid.of_each([]), [])
        for text, why in (("bafy", "59 letters"), (f"z{str(empty)[1:]}", "begin with b"), (str(empty).replace("e", "1", 1), "base32"), (f"{str(empty)[:-1]}n", "bits"), (str(empty).replace("fyrei", "fkrei"), "CIDv1")):
            self.assertRaisesRegex(ValueError, why, t.Cid.parse, text)
        # the profile is the library's
        for at in range(36):
            other = bytearray(empty.bytes)
            other[at] ^= 1
            if at < 4:
                self.assertRaises(ValueError, t.Cid, other)
            else:
                self.assertEqual(t.Cid.parse(str(t.Cid(other))).bytes, other)

    def test_writes(self):
        self.assertEqual(t.version(), t.VERSION)
        t.check_write(t.Create("a.b.c/d", b"\xa0"), False)
        for write, there, number in ((t.Create("a.b.c/d", b"\xa0"), True, 23), (t.Delete("a.b.c/d"), False, 24), (t.Put("a", b"\xa0"), True, 20), (t.Put("a.b.c/d", b""), True, 1)):
            with self.assertRaises(t.Fault) as it:
                t.check_write(write, there)
            self.assertEqual(it.exception.number, number)

    def test_tests(self):
        self.assertEqual(t.layer("app.bsky.feed.post/9adeb165882c"), 8)
        self.assertTrue(t.is_key("a") and not t.is_key("") and t.is_repository_key("a.b.c/d") and not t.is_repository_key("a/b/c"))
        self.assertTrue(t.is_did(DID) and t.is_tid(tid(1)) and not t.is_tid("1"))
        self.assertEqual([t.record_fault(it) for it in (b"\xa0", b"", b"\xfb" + bytes(8))], [0, 1, 9])
        t.check_stamp("", DID, tid(1))
        with self.assertRaises(t.Fault) as it:
            t.check_stamp(tid(1), DID, tid(1))
        self.assertEqual(it.exception.number, 29)
