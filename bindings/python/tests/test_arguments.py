"""What is given to calls."""
import unittest

import tizulgech as t

from support import DID, tid


class Arguments(unittest.TestCase):
    """What isn't of a call's types or out of its range is refused before the library has it, and what is bytes is taken as bytes."""

    def test_types(self):
        empty, nodes = t.Cid.of(t.EMPTY_NODE), {t.Cid.of(t.EMPTY_NODE): t.EMPTY_NODE}
        with t.Repository(10) as repository:
            wrong = [
                lambda it: t.Cid.of(it),
                lambda it: t.Cid.of_each([b"", it]),
                lambda it: t.Cid.parse(it),
                lambda it: t.Cid(it),
                lambda it: t.record_fault(it),
                lambda it: t.layer(it),
                lambda it: t.is_key(it),
                lambda it: t.is_repository_key(it),
                lambda it: t.is_did(it),
                lambda it: t.is_tid(it),
                lambda it: t.check_write(it, True),
                lambda it: t.check_stamp(it, DID, tid(1)),
                lambda it: t.check_stamp("", it, tid(1)),
                lambda it: t.check_stamp("", DID, it),
                lambda it: t.commit_bytes(it, tid(1), empty),
                lambda it: t.commit_bytes(DID, it, empty),
                lambda it: t.commit_bytes(DID, tid(1), it),
                lambda it: t.tree_root([(it, empty)]),
                lambda it: t.tree_root([("a", it)]),
                lambda it: t.listing_car(it, tid(1), [("a.b.c/d", b"\xa0")]),
                lambda it: t.listing_car(DID, tid(1), [("a.b.c/d", it)]),
                lambda it: t.links(it),
                lambda it: t.verify(it, [], "a"),
                lambda it: t.verify(empty, [it], "a"),
                lambda it: t.verify(empty, [], it),
                lambda it: t.verify_change(it, empty, [], []),
                lambda it: t.verify_change(empty, it, [], []),
                lambda it: t.verify_change(empty, empty, [it], []),
                lambda it: t.verify_change(empty, empty, [], [("a", it, empty)]),
                lambda it: t.verify_inversion(it, empty, [], []),
                lambda it: t.verify_inversion(empty, it, [], []),
                lambda it: t.verify_inversion(empty, empty, [it], []),
                lambda it: t.verify_inversion(empty, empty, [], [("a", it, empty)]),
                lambda it: t.tree_get(lambda _: it, empty, "a"),
                lambda it: t.tree_get(nodes.get, it, "a"),
                lambda it: t.tree_get(nodes.get, empty, it),
                lambda it: t.tree_apply(lambda _: it, empty, {"a": None}),
                lambda it: t.tree_apply(nodes.get, it, {"a": None}),
                lambda it: t.tree_apply(nodes.get, empty, {"a": it}),
                lambda it: t.tree_apply(nodes.get, empty, {it: empty}),
                lambda it: t.Put(it, b"\xa0"),
                lambda it: t.Put("a", it),
                lambda it: t.Delete(it),
                lambda it: t.Write(it, "a"),
                lambda it: t.Repository(it),
                lambda it: repository.apply(it, tid(1), []),
                lambda it: repository.apply(DID, it, []),
                lambda it: repository.apply(DID, tid(1), [it]),
                lambda it: repository.get(it),
                lambda it: repository.list(it),
                lambda it: repository.list("", it),
                lambda it: next(repository.pairs(it)),
                lambda it: repository.prove(it),
                lambda it: repository.prove_change({"a": it}),
                lambda it: repository.prove_inversion([("a", it, None)]),
                lambda it: next(repository.car_parts(it)),
            ]
            for place, call in enumerate(wrong):
                for it in (1.5, object(), ("a", "b"), [1]):
                    with self.assertRaises(TypeError, msg=f"{place}: {it}"):
                        call(it)
            # bytes that are text or a number
            for call in (t.Cid.of, t.Cid, t.record_fault, t.links, lambda it: t.Put("a", it), lambda it: t.listing_car(DID, tid(1), [("a", it)]), lambda it: t.tree_get(lambda _: it, empty, "a")):
                self.assertRaises(TypeError, call, "text")
                self.assertRaises(TypeError, call, 5)
            self.assertRaises(TypeError, t.check_write, (0, "a.b.c/d", b"\xa0"), False)
            self.assertRaises(TypeError, t.tree_apply, nodes.get, empty, {"a": bytes(36)})
            self.assertEqual((repository.number, len(list(repository))), (0, 0))

    def test_ranges(self):
        most, empty = 1 << 64, t.Cid.of(t.EMPTY_NODE)
        with t.Repository(10) as repository:
            repository.apply(DID, tid(1), [t.Put("a.b.c/d", b"\xa0"), t.Put("a.b.c/e", b"\xa0")])
            for call in (
                lambda: t.Repository(most + 1), lambda: t.Repository(-1), lambda: repository.list("", most + 1), lambda: repository.list("", -1), lambda: next(repository.car_parts(most + 1)),
                lambda: t.Write(4, "a"), lambda: t.Write(256, "a"), lambda: t.Write(259, "a"), lambda: t.Write(-1, "a"), lambda: t.Cid(bytes(36)), lambda: t.Cid(b""), lambda: t.Cid(empty.bytes + b"x"),
                lambda: t.Put("\ud800", b"\xa0"), lambda: t.is_key("\ud800"), lambda: repository.apply("\ud800", tid(2), [t.Delete("a.b.c/d")]),
            ):
                self.assertRaises(ValueError, call)
            self.assertEqual(len(repository.list("", most - 1)), 2)
            self.assertEqual((len(repository.list(most=1)), repository.number), (1, 2))

    def test_bytes(self):
        for of in (bytes, bytearray, memoryview):
            key, record, did, rev = of(b"a.b.c/d"), of(b"\xa0"), of(DID.encode()), of(tid(1).encode())
            self.assertEqual((t.Cid.of(record), t.record_fault(record), t.is_repository_key(key), t.is_tid(rev), t.layer(key)), (t.Cid.of(b"\xa0"), 0, True, True, t.layer("a.b.c/d")))
            self.assertEqual((t.Cid(of(t.Cid.of(b"").bytes)), t.Cid.of_each([record])), (t.Cid.of(b""), [t.Cid.of(b"\xa0")]))
            with t.Repository(10) as repository:
                applied = repository.apply(did, rev, [t.Create(key, record)])
                self.assertEqual((repository.get(key), t.listing_car(did, rev, [(key, record)])), (b"\xa0", repository.car()))
                proof = [of(it) for it in repository.prove(key)]
                told = [(key, None, t.Cid.of(b"\xa0"))]
                self.assertEqual(t.verify(applied.root, proof, key), t.Cid.of(b"\xa0"))
                t.verify_inversion(applied.previous, applied.root, [of(it) for it in repository.prove_inversion(told)], told)
                back = repository.prove_change({"a.b.c/d": None})
                t.verify_change(applied.root, applied.previous, [of(it) for it in back.nodes], back.changes)
            nodes = {applied.root: proof[0]}
            self.assertEqual((t.tree_get(nodes.get, applied.root, key), t.tree_apply(nodes.get, applied.root, {"a.b.c/d": None}).root), (t.Cid.of(b"\xa0"), t.Cid.of(t.EMPTY_NODE)))
