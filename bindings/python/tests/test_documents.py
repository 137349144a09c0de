"""README.md, `help`, and the types of all public names."""
import inspect
import pickle
import pydoc
import re
import typing
import unittest

import tizulgech as t

from support import read


def public(of):
    """What a class has of its own that is public, functions and properties, each with its name."""
    for name, it in vars(of).items():
        if name == "__init__" or not name.startswith("_"):
            if isinstance(it, (staticmethod, property)) or inspect.isfunction(it):
                yield name, it.__func__ if isinstance(it, staticmethod) else it.fget if isinstance(it, property) else it


class Documents(unittest.TestCase):
    def test_examples(self):
        found, names = re.findall(r"^```python\n(.*?)^```", read("bindings/python/README.md"), re.M | re.S), {}
        self.assertEqual(len(found), 3)
        for it in found:
            exec(it, names)
        shown = re.search(r"\n\n((?:    .*\n|\n)+)", t.__doc__)[1]
        exec(inspect.cleandoc(shown), {})

    def test_names(self):
        """All that is public says what it is, has types that can be resolved, and is named by the package's documentation."""
        functions = []
        for name in t.__all__:
            it = getattr(t, name)
            if inspect.isclass(it):
                self.assertTrue(it.__doc__ and not it.__doc__.startswith(f"{name}("), name)
                typing.get_type_hints(it)
                functions += [(f"{name}.{own}", of) for own, of in public(it)]
            elif inspect.isfunction(it):
                functions.append((name, it))
        self.assertGreater(len(functions), 40)
        for name, it in functions:
            hints = typing.get_type_hints(it)
            wanted = {own for own in inspect.signature(it).parameters if own != "self"} | {"return"}
            self.assertEqual(set(hints), wanted, name)
            self.assertTrue(it.__doc__ or name.endswith("__init__"), name)
        for name in set(t.__all__) - {"Bytes", "Text", "Told", "Nodes", "VERSION", "version"}:
            self.assertRegex(t.__doc__ + read("bindings/python/README.md"), rf"\b{name}\b")

    def test_help(self):
        shown = pydoc.plain(pydoc.render_doc(t))
        for name in t.__all__:
            self.assertRegex(shown, rf"\b{name}\b")
        for line in ("A verified AT Protocol repository", "The record stands under the key, whatever stood there.", "Accepts all writes of a batch, in order, under a stamp, or none of them."):
            self.assertIn(line, shown)
        self.assertNotRegex(shown, r"\bctypes\.\w+\(|_library\b.*=|site-packages/.*/tests")

    def test_faults(self):
        """Each fault has the header's number and name and a sentence, none of a list has another's, and another process is told the same."""
        for names in (t.FAULTS, t.FAULTS_OF_CIDS, t.FAULTS_OF_TREES):
            self.assertEqual(len({name for name, _ in names.values()}), len(names))
            for number, (name, sentence) in names.items():
                fault = t.Fault(number, 7, names)
                self.assertEqual((fault.number, fault.name, fault.place, str(fault)), (number, name, 7, sentence))
                self.assertTrue(sentence)
                again = pickle.loads(pickle.dumps(fault))
                self.assertEqual((type(again), vars(again), str(again)), (t.Fault, vars(fault), sentence))
        for of in (t.Missing, t.BadNode):
            fault = of(t.Cid.of(b""))
            again = pickle.loads(pickle.dumps(fault))
            self.assertEqual((type(again), vars(again), str(again)), (of, vars(fault), str(fault)))
        header = read("bindings/c/tizulgech.h")
        declared = {(name, int(number)) for name, number in re.findall(r"TIZULGECH_(\w+) = (\d+)", header)} - {("DONE", 0)}
        self.assertEqual({(name, number) for names in (t.FAULTS, t.FAULTS_OF_CIDS, t.FAULTS_OF_TREES) for number, (name, _) in names.items()}, declared)
        self.assertEqual(t.VERSION, int(re.search(r"TIZULGECH_VERSION (\d+)", header)[1]))


if __name__ == "__main__":
    unittest.main()
