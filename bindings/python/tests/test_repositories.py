"""Repositories beside a plain map, their proofs and their limits."""
import random
import unittest

import tizulgech as t

from support import DID, key, read, record, tid


class Repositories(unittest.TestCase):
    def test_random(self):
        draw, plain, number = random.Random(2), {}, 0
        with t.Repository(10_000) as repository:
            for turn in range(60):
                writes = [t.Put(key(draw.randrange(50)), record(draw.randrange(99))) for _ in range(1 + draw.randrange(9))]
                before, had = repository.root, dict(plain)
                plain.update({it.key: it.record for it in writes})
                proof = repository.prove_change({it.key: t.Cid.of(plain[it.key]) for it in writes})
                applied = repository.apply(DID, tid(turn + 1), writes)
                self.change_proofs(repository, applied, proof, [(k, t.Cid.of(had[k]) if k in had else None, t.Cid.of(plain[k])) for k in sorted({it.key for it in writes})])
                number += len(writes)
                pairs = [(k, t.Cid.of(r)) for k, r in sorted(plain.items())]
                self.assertEqual((applied.previous, applied.root), (before, t.tree_root(pairs)[0]))
                self.assertEqual((repository.root, repository.commit, repository.number), (applied.root, applied.commit, number))
                self.assertEqual(list(repository), [(k.encode(), c) for k, c in pairs])
                self.assertEqual(list(repository.pairs(key(turn))), [(k.encode(), c) for k, c in pairs if k >= key(turn)])
                one = key(draw.randrange(50))
                self.assertEqual(repository.get(one), plain.get(one))
                value = t.verify(repository.root, repository.prove(one), one)
                self.assertEqual(value, t.Cid.of(plain[one]) if one in plain else None)
            self.assertEqual(t.Cid.of(t.commit_bytes(DID, tid(60), repository.root)), repository.commit)
            whole = repository.car()
            self.assertEqual(repository.car_length(), len(whole))
            for length in (1, 77, 1000, len(whole), len(whole) + 1):
                self.assertEqual(b"".join(repository.car_parts(length)), whole)
            self.assertEqual(b"".join(repository.car_sections()), whole)
            with self.assertRaises(t.Fault) as it:
                repository.apply(DID, tid(99), [t.Put("a.b.c/d", b"\xa0"), t.Create(key(0), b"\xa0"), t.Create(key(0), b"\xa0")])
            self.assertEqual((it.exception.number, it.exception.place), (23, 1 if key(0) in plain else 2))
        self.assertRaises(t.Fault, lambda: repository.root)

    def change_proofs(self, repository, applied, proof, told):
        """What a batch changed is proved, forward and back, and with anything else told, or a node less, it isn't."""
        old, new, nodes, back, other = applied.previous, applied.root, proof.nodes, repository.prove_inversion(told), t.Cid.of(b"another")
        self.assertEqual((proof.after, proof.changes), (new, [(key.encode(), before, after) for key, before, after in told]))
        t.verify_change(old, new, nodes, told)
        t.verify_inversion(old, new, back, told)
        (key, before, after), front, place = told[-1], told[:-1], len(told) - 1
        earlier, later = front + [(key, other, after)], front + [(key, before, other)]
        faults = (
            (lambda: t.verify_change(old, other, nodes, told), 34, 0), (lambda: t.verify_change(old, new, nodes, earlier), 33, place), (lambda: t.verify_change(old, new, nodes, later), 34, 0),
            (lambda: t.verify_change(old, new, nodes[1:], told), 2, 0), (lambda: t.verify_change(old, new, nodes, told + told[:1]), 252, 0),
            (lambda: t.verify_inversion(other, new, back, told), 34, 0), (lambda: t.verify_inversion(old, new, back, later), 33, place), (lambda: repository.prove_inversion(later), 33, place),
            (lambda: t.verify_inversion(old, new, back[1:], told), 2, 0), (lambda: t.verify_inversion(old, new, back, told + told[:1]), 252, 0),
        )
        for call, number, place in faults:
            with self.assertRaises(t.Fault) as it:
                call()
            self.assertEqual((it.exception.number, it.exception.place), (number, place))

    def test_root_of_no_records(self):
        """A root that no records have: undone, the change that is told leads back, though a record is lost. As a step it is refused."""
        before, after, change, *nodes = read("examples/lost.txt").splitlines()
        (_, key, had, has), nodes, (before, after) = change.split(" "), [bytes.fromhex(it) for it in nodes], map(t.Cid.parse, (before, after))
        self.assertEqual(had, "-")
        told = [(key, None, t.Cid.parse(has))]
        t.verify_inversion(before, after, nodes, told)
        with self.assertRaises(t.Fault) as it:
            t.verify_change(before, after, nodes, told)
        self.assertEqual(it.exception.name, "OTHER_ROOT")
        self.assertTrue(t.verify(before, nodes, "posts/10") and t.verify(after, nodes, "posts/10") is None)

    def test_limits(self):
        self.assertRaises(t.Fault, t.Repository, 0)
        repository = t.Repository(1)
        self.assertTrue(repository)
        self.assertIsNone(repository.commit)
        repository.close()
        repository.close()
        self.assertFalse(repository)
        for call in (repository.get, repository.prove, repository.list):
            with self.assertRaises(t.Fault) as it:
                call("a.b.c/d")
            self.assertEqual((it.exception.number, it.exception.name), (250, "CLOSED"))
