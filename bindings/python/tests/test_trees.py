"""Trees whose nodes a host keeps."""
import random
import unittest
from unittest import mock

import tizulgech as t

from support import key, node_of, node_over


class Trees(unittest.TestCase):
    def test_random(self):
        draw = random.Random(1)
        root = t.Cid.of(t.EMPTY_NODE)
        nodes, plain = {root: t.EMPTY_NODE}, {}
        for turn in range(100):
            changes = {key(draw.randrange(100)): t.Cid.of(b"%d" % turn) if draw.random() < 0.6 else None for _ in range(draw.randrange(9))}
            edit = t.tree_apply(nodes.get, root, changes)
            self.assertEqual(t.tree_apply(nodes.get, root, changes, known=True), edit)
            self.assertEqual(edit.previous, [plain.get(k) for k in sorted(changes)])
            for cid in edit.drop:
                del nodes[cid]
            nodes.update(edit.add)
            root = edit.root
            plain = {k: v for k, v in {**plain, **changes}.items() if v}
            self.assertEqual((root, len(nodes)), t.tree_root(sorted(plain.items())))
            self.assertTrue(all(t.Cid.of(node) == cid for cid, node in nodes.items()))
        some = next(iter(plain))
        self.assertEqual(t.tree_get(nodes.get, root, some), plain[some])
        with self.assertRaisesRegex(t.Fault, "don't ascend"):
            t.tree_root([("b", root), ("a", root)])
        with self.assertRaisesRegex(t.Fault, "is missing"):
            t.verify(root, [], "a")
        with self.assertRaisesRegex(t.Fault, "no bytes"):
            t.verify(root, [], "")
        with self.assertRaises(t.BadNode) as it:
            t.tree_apply(lambda cid: t.EMPTY_NODE, root, {"a": root})
        self.assertEqual(it.exception.cid, root)
        with self.assertRaises(t.Missing) as it:
            t.tree_apply({}.get, root, {"a": root})
        self.assertEqual(it.exception.cid, root)
        # another node under the CID of any that is asked for is refused, wherever it leads
        asked = []
        t.tree_apply(lambda cid: asked.append(cid) or nodes[cid], root, {some: None})
        for gone in asked:
            with self.assertRaises(t.BadNode) as it:
                t.tree_apply(lambda cid: t.EMPTY_NODE if cid == gone else nodes[cid], root, {some: None})
            self.assertEqual(it.exception.cid, gone)
            with self.assertRaises(t.Missing) as it:
                t.tree_apply(lambda cid: None if cid == gone else nodes[cid], root, {some: None}, known=True)
            self.assertEqual(it.exception.cid, gone)

    def test_deletes(self):
        """However many keys go, each node is asked for once, and all of them are given to one call, and to another where its room was too small."""
        pairs = {key(it): t.Cid.of(b"%d" % it) for it in range(3000)}
        edit = t.tree_apply({t.Cid.of(t.EMPTY_NODE): t.EMPTY_NODE}.get, t.Cid.of(t.EMPTY_NODE), pairs)
        nodes, draw, call = dict(edit.add), random.Random(3), t._library.call
        for gone in (1, 10, 1000, 2500, 3000):
            asked, made = [], []
            drawn = dict.fromkeys(draw.sample(sorted(pairs), gone))
            with mock.patch.object(t._library, "call", lambda name, **given: made.append(name) or call(name, **given)):
                done = t.tree_apply(lambda cid: asked.append(cid) or nodes.get(cid), edit.root, drawn, known=True)
            self.assertEqual((len(set(asked)), made.count("below")), (len(asked), len(asked)))
            self.assertIn(made.count("tree_apply"), (1, 2))
            self.assertEqual(done.previous, [pairs[it] for it in sorted(drawn)])
            left = [(k, v) for k, v in sorted(pairs.items()) if k not in drawn]
            self.assertEqual((done.root, len(nodes) - len(done.drop) + len(done.add)), t.tree_root(left))

    def test_no_trees(self):
        """The faults of nodes that are no tree's, each by its own number."""
        over, high = node_over(t.Cid.of(t.EMPTY_NODE)), next(f"b{it}" for it in range(99) if t.layer(f"b{it}") == 1)
        before, behind = node_of(None, b"z", None), node_of(None, b"a", None)
        crossed = node_of(t.Cid.of(before), high.encode(), t.Cid.of(behind))
        cases = (
            ([over, t.EMPTY_NODE], "a", None, 31, t.Fault), ([crossed, before, behind], high, t.Cid.of(b""), 35, t.Fault),
            ([b"no node"], "a", None, 30, t.BadNode),
        )
        for blocks, key, had, number, raised in cases:
            root, nodes = t.Cid.of(blocks[0]), {t.Cid.of(it): it for it in blocks}
            for call in (lambda: t.verify_change(root, root, blocks, [(key, had, None)]), lambda: t.verify_inversion(root, root, blocks, [(key, None, had)]), lambda: t.tree_apply(nodes.get, root, {key: None}), lambda: t.tree_apply(nodes.get, root, {key: None}, known=True)):
                with self.assertRaises(raised) as it:
                    call()
                self.assertEqual((it.exception.number, getattr(it.exception, "cid", root)), (number, root))
        with self.assertRaises(t.BadNode) as it:
            t.tree_get(lambda _: b"no node", root, "a")
        self.assertEqual(it.exception.cid, root)
        for number, name in ((2, "MISSING"), (30, "BAD_NODE")):
            with self.assertRaises(t.Fault) as it:
                t.verify(t.Cid.of(b"no node"), [b"no node"] if number == 30 else [], "a")
            self.assertEqual((it.exception.number, it.exception.name), (number, name))
