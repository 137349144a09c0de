"""A repository in parts."""
import unittest

import tizulgech as t

from support import DID, key, node_over, record, tid


class Parts(unittest.TestCase):
    def test_between(self):
        """Parts that were read one after another are of one state, or the reader is told."""
        with t.Repository(10_000) as repository:
            repository.apply(DID, tid(1), [t.Put(key(it), record(it)) for it in range(600)])
            for turn, parts in enumerate((lambda: repository.car_parts(1000), repository.car_sections, lambda: iter(repository), repository.pairs)):
                read = parts()
                next(read)
                # reading is no batch, and neither is one that is refused
                repository.get(key(1))
                self.assertRaises(t.Fault, repository.apply, DID, tid(1), [t.Put(key(1), record(7))])
                if turn < 2:
                    next(read)
                repository.apply(DID, tid(turn + 2), [t.Put(key(601 + turn), record(7))])
                with self.assertRaises(t.Changed):
                    for _ in read:
                        pass
                # one that begins anew is of the new state
                self.assertEqual(b"".join(parts()) if turn < 2 else list(parts()), repository.car() if turn < 2 else list(repository.list(most=10_000)))
            self.assertEqual(b"".join(repository.car_parts(1 << 20)), repository.car())

    def test_links(self):
        empty = t.Cid.of(t.EMPTY_NODE)
        self.assertEqual((t.links(t.EMPTY_NODE), t.links(node_over(empty))), ([], [(True, empty)]))
        with self.assertRaises(t.Fault) as it:
            t.links(b"another block")
        self.assertEqual((it.exception.number, it.exception.name), (30, "BAD_NODE"))
        with t.Repository(1000) as repository:
            repository.apply(DID, tid(1), [t.Put(key(it), record(it)) for it in range(300)])
            # down all links: each pair once, in the order of the keys
            nodes, records = {}, []

            def below(cid):
                for is_node, cid in t.links(nodes[cid]):
                    below(cid) if is_node else records.append(cid)

            for number in range(300):
                nodes.update((t.Cid.of(it), it) for it in repository.prove(key(number)))
            below(repository.root)
            self.assertEqual(records, [cid for _, cid in repository])
            pairs = sorted((key(it), record(it)) for it in range(300))
            self.assertEqual(t.listing_car(DID, tid(1), pairs), repository.car())
            with self.assertRaises(t.Fault) as it:
                t.listing_car(DID, tid(1), [("bad", b"\xa0")])
            self.assertEqual(it.exception.name, "NOT_BUILT")
