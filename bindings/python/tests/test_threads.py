"""Threads that share a repository, and that have one each."""
import contextlib
import itertools
import sys
import threading
import time
import unittest
from unittest import mock

import tizulgech as t

from support import DID, key, record, tid, together


class Threads(unittest.TestCase):
    def test_one_repository(self):
        """Threads that share a repository wait for one another."""
        faults, batches = [], 60
        with t.Repository(10_000) as repository:
            repository.apply(DID, tid(1), [t.Put(key(it), record(it)) for it in range(300)])

            def reading():
                try:
                    for turn in range(batches):
                        repository.get(key(turn)), repository.root, repository.prove(key(turn)), repository.list(most=100), repository.car()
                except BaseException as it:
                    faults.append(it)

            def writing():
                try:
                    for turn in range(batches):
                        repository.apply(DID, tid(turn + 2), [t.Put(key(300 + turn), record(turn)), t.Delete(key(turn))])
                except BaseException as it:
                    faults.append(it)

            together([writing, reading, reading, reading])
            self.assertEqual((faults, repository.number), ([], 300 + 2 * batches))
            pairs = [(key(it), t.Cid.of(record(it))) for it in range(batches, 300)] + [(key(300 + it), t.Cid.of(record(it))) for it in range(batches)]
            self.assertEqual(repository.root, t.tree_root(sorted(pairs))[0])

    def test_dropped(self):
        """One that another thread lets go is given back, as is one of a thread that ends."""
        call, closed = t._library.call, []

        def counted(name, **given):
            if name == "close":
                closed.append((threading.get_ident(), given["repository"].is_open))
            return call(name, **given)

        with mock.patch.object(t._library, "call", counted):
            held = [t.Repository(1)]
            thread = threading.Thread(target=held.clear)
            thread.start()
            thread.join()
            self.assertEqual([is_open for _, is_open in closed], [True])
            self.assertNotEqual(closed[0][0], threading.get_ident())
            thread = threading.Thread(target=lambda: held.append(t.Repository(1)))
            thread.start()
            thread.join()
            held[0].apply(DID, tid(1), [t.Put("a.b.c/d", b"\xa0")])
            held.clear()
            self.assertEqual([is_open for _, is_open in closed], [True, True])

    def test_many(self):
        """One repository a thread."""
        roots = []

        def work():
            with t.Repository(100) as repository:
                for turn in range(50):
                    repository.apply(DID, tid(turn + 1), [t.Put(key(turn), record(turn))])
                roots.append(repository.root)

        together([work] * 4)
        wanted = t.tree_root(sorted((key(turn), t.Cid.of(record(turn))) for turn in range(50)))[0]
        self.assertEqual(roots, [wanted] * 4)

    def test_one_at_a_time(self):
        """However many threads call one repository, one call at a time is under way, and each has what it wrote."""
        call, under_way, most, faults = t._library.call, [], [], []
        rev, order = itertools.count(1), threading.Lock()

        def counted(name, **given):
            if "repository" not in given:
                return call(name, **given)
            under_way.append(name)
            most.append(len(under_way))
            # other threads may go on here, whatever the machine does
            time.sleep(0)
            try:
                return call(name, **given)
            finally:
                under_way.remove(name)

        def hammer(own):
            try:
                for turn in range(20):
                    mine = key(1000 * own + turn)
                    with order:
                        repository.apply(DID, tid(next(rev)), [t.Create(mine, record(turn))])
                    self.assertEqual(repository.get(mine), record(turn))
                    root, proof = repository.root, repository.prove(mine)
                    if t.Cid.of(proof[0]) == root:
                        self.assertEqual(t.verify(root, proof, mine), t.Cid.of(record(turn)))
                    self.assertRaises(t.Fault, repository.apply, DID, "1", [t.Delete(mine)])
                    self.assertTrue(repository and repository.number and repository.commit and repository.list(most=3) and repository.car())
                    repository.prove_change({mine: None}), repository.prove_inversion([(mine, None, t.Cid.of(record(turn)))])
                    for parts in (repository.car_sections, lambda: repository.car_parts(10_000), lambda: iter(repository)) if turn % 10 == 0 else ():
                        with contextlib.suppress(t.Changed):
                            list(parts())
            except BaseException as it:
                faults.append(it)

        with t.Repository(10_000) as repository, mock.patch.object(t._library, "call", counted):
            together([lambda own=own: hammer(own) for own in range(16)])
            self.assertEqual((faults, max(most), repository.number), ([], 1, 16 * 20))
            pairs = sorted((key(1000 * own + turn), t.Cid.of(record(turn))) for own in range(16) for turn in range(20))
            self.assertEqual(repository.root, t.tree_root(pairs)[0])

    def test_closed_meanwhile(self):
        """Who closes it waits for the call that is under way, and whoever comes later is told that it is closed."""
        call, inside, go_on, answers = t._library.call, threading.Event(), threading.Event(), []

        def waiting(name, **given):
            if name == "get":
                inside.set()
                go_on.wait()
            return call(name, **given)

        def late():
            try:
                repository.root
            except t.Fault as fault:
                answers.append(fault.name)

        repository = t.Repository(10)
        repository.apply(DID, tid(1), [t.Put("a.b.c/d", b"\xa0")])
        self.addCleanup(go_on.set)
        with mock.patch.object(t._library, "call", waiting):
            threads = [threading.Thread(target=lambda: answers.append(repository.get("a.b.c/d")))]
            threads[0].start()
            inside.wait()
            threads += [threading.Thread(target=repository.close)]
            threads[1].start()
            threads[1].join(0.05)
            self.assertTrue(threads[1].is_alive() and repository._raw.is_open)
            go_on.set()
            for it in threads:
                it.join()
        late()
        self.assertEqual((answers, bool(repository)), ([b"\xa0", "CLOSED"], False))
        # many close it at once, and others call it meanwhile
        repository, answers = t.Repository(10), []
        together([repository.close] * 8 + [late] * 8)
        self.assertTrue(set(answers) <= {"CLOSED"} and not repository)

    def test_handler(self):
        """A call from within a call of the same thread, as a handler of a signal makes it, is refused and hangs nothing."""
        call, refused = t._library.call, []

        def interrupted(name, **given):
            if name == "stage":
                for it in (lambda: repository.root, lambda: repository.apply(DID, tid(9), []), repository.close, lambda: bool(repository)):
                    with self.assertRaisesRegex(RuntimeError, "under way on this thread"):
                        it()
                    refused.append(it)
                other.apply(DID, tid(1), [t.Put("a.b.c/d", b"\xa0")])
            return call(name, **given)

        with t.Repository(10) as repository, t.Repository(10) as other:
            with mock.patch.object(t._library, "call", lambda name, **given: (interrupted if given.get("repository") is repository._raw else call)(name, **given)):
                repository.apply(DID, tid(1), [t.Put("a.b.c/d", b"\xa0")])
            self.assertEqual((len(refused), repository.number, other.number), (4, 1, 1))
            self.assertEqual(repository.get("a.b.c/d"), b"\xa0")

    def test_goes_on(self):
        """While a call is under way other threads go on, though the interpreter takes itself from none."""
        records = sorted((key(it), record(it)) for it in range(5000))
        turns, ended, filled, meanwhile = [], threading.Event(), t._library.filled, []

        def other():
            with t.Repository(10) as repository:
                while not ended.is_set():
                    turns.append(repository.root)

        def measured(*given, **named):
            before = len(turns)
            try:
                return filled(*given, **named)
            finally:
                meanwhile.append(len(turns) - before)

        interval, thread = sys.getswitchinterval(), threading.Thread(target=other)
        sys.setswitchinterval(5)
        try:
            thread.start()
            with mock.patch.object(t._library, "filled", measured):
                # one call is enough, but for a machine that has no time for the other thread
                begun = time.monotonic()
                while not any(meanwhile) and time.monotonic() < begun + 2:
                    t.listing_car(DID, tid(1), records)
        finally:
            sys.setswitchinterval(interval)
            ended.set()
            thread.join()
        self.assertTrue(any(meanwhile))
