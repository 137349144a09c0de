"""The wheel: what is in it, and that it is the same each time."""
import base64
import hashlib
import os
import re
import sys
import tempfile
import unittest
import zipfile
from unittest import mock

import tizulgech as t

from support import ROOT, module, read


@unittest.skipIf(sys.version_info < (3, 11), "the wheel is made by Python 3.11 or later")
class Wheel(unittest.TestCase):
    def setUp(self):
        self.backend = module("bindings/python/backend/wheels.py")
        self.room = self.enterContext(tempfile.TemporaryDirectory())

    def made(self, folder):
        with mock.patch.dict(os.environ, {"TIZULGECH_LIB_DIR": os.path.dirname(t._library.PATH)}):
            return os.path.join(folder, self.backend.build_wheel(folder))

    def test_content(self):
        path = self.made(self.room)
        version = read("VERSION").strip()
        self.assertRegex(os.path.basename(path), rf"^tizulgech-{re.escape(version)}-py3-none-linux_\w+\.whl$")
        with zipfile.ZipFile(path) as wheel:
            self.assertIsNone(wheel.testzip())
            self.assertEqual({(it.date_time, it.external_attr >> 16) for it in wheel.infolist()}, {((1980, 1, 1, 0, 0, 0), 0o100644)})
            files = {it: wheel.read(it) for it in wheel.namelist()}
        about = f"tizulgech-{version}.dist-info"
        sources = {f"tizulgech/{it}" for it in os.listdir(os.path.join(ROOT, "bindings/python/tizulgech")) if it.endswith(".py")}
        others = {"tizulgech/py.typed", "tizulgech/libtizulgech.so"} | {f"{about}/{it}" for it in ("METADATA", "WHEEL", "RECORD", "licenses/LICENSE", "licenses/LICENSE-MIT", "licenses/LICENSE-APACHE")}
        self.assertEqual(set(files), sources | others)
        with open(t._library.PATH, "rb") as it:
            self.assertEqual(files["tizulgech/libtizulgech.so"], it.read())
        # each file has a line with its hash and its length, and the record's own has neither
        lines = [it.split(",") for it in files[f"{about}/RECORD"].decode().splitlines()]
        hashed = lambda content: "sha256=" + base64.urlsafe_b64encode(hashlib.sha256(content).digest()).rstrip(b"=").decode()
        self.assertEqual(sorted(lines), sorted([it, "", ""] if it.endswith("/RECORD") else [it, hashed(files[it]), str(len(files[it]))] for it in files))
        metadata = files[f"{about}/METADATA"].decode()
        head, _, body = metadata.partition("\n\n")
        self.assertEqual(body, read("bindings/python/README.md"))
        for line in ("Name: tizulgech", f"Version: {version}", "License-Expression: MIT OR Apache-2.0", "Requires-Python: >=3.8"):
            self.assertIn(line, head.split("\n"))
        self.assertIn(f"Tag: {os.path.basename(path)[len(f'tizulgech-{version}-'):-4]}\n", files[f"{about}/WHEEL"].decode())

    def test_again(self):
        wheels = []
        for name in ("one", "two"):
            folder = os.path.join(self.room, name)
            os.mkdir(folder)
            with open(self.made(folder), "rb") as it:
                wheels.append(it.read())
        self.assertEqual(*wheels)

    def test_refused(self):
        with mock.patch.dict(os.environ, {"TIZULGECH_LIB_DIR": self.room}):
            self.assertRaisesRegex(FileNotFoundError, "make library", self.backend.build_wheel, self.room)
        self.assertRaises(self.backend.UnsupportedOperation, self.backend.build_sdist, self.room)
        self.assertEqual(os.listdir(self.room), [])


if __name__ == "__main__":
    unittest.main()
