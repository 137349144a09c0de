"""Batches, whatever is raised."""
import unittest
from unittest import mock

import tizulgech as t

from support import DID, tid


class Batches(unittest.TestCase):
    """A batch is accepted as a whole or leaves nothing behind, whatever is raised."""

    def only(self, repository, rev):
        """The next batch has its own write alone."""
        before = repository.number
        repository.apply(DID, tid(rev), [t.Put("a.b.c/own", b"\xa0")])
        self.assertEqual((repository.number, [key for key, _ in repository]), (before + 1, [b"a.b.c/own"]))

    def test_exceptions(self):
        def failing(raised):
            yield t.Put("a.b.c/d", b"\xa0")
            raise raised

        good = t.Put("a.b.c/d", b"\xa0")
        batches = [
            (lambda repository: repository.apply(DID, tid(99), failing(KeyboardInterrupt())), KeyboardInterrupt), (lambda repository: repository.apply(DID, tid(99), failing(OSError())), OSError),
            (lambda repository: repository.apply(DID, tid(99), [good, ("a.b.c/e", b"\xa0")]), TypeError), (lambda repository: repository.apply(None, tid(99), [good]), TypeError),
            (lambda repository: repository.apply(DID, None, [good]), TypeError), (lambda repository: repository.apply("\ud800", tid(99), [good]), ValueError), (lambda repository: repository.apply(DID, "1", [good]), t.Fault),
            (lambda repository: repository.apply(DID, tid(99), [good, t.Put("a", b"\xa0")]), t.Fault), (lambda repository: repository.apply(DID, tid(99), 5), TypeError),
        ]
        with t.Repository(100) as repository:
            for turn, (batch, raised) in enumerate(batches):
                with self.assertRaises(raised):
                    batch(repository)
                self.only(repository, turn + 1)

    def test_interrupted(self):
        """An exception from outside, as Ctrl-C, at each call of a batch, and a second one as soon as it is cleared."""
        call = t._library.call
        for at in range(6):
            for twice in (False, True):
                made = []

                def stopping(name, **given):
                    made.append(name)
                    if len(made) == at + 1 or twice and len(made) > at + 1:
                        raise KeyboardInterrupt
                    return call(name, **given)

                with t.Repository(100) as repository:
                    with mock.patch.object(t._library, "call", stopping):
                        try:
                            repository.apply(DID, tid(1), [t.Put(f"a.b.c/{it}", b"\xa0") for it in "xyz"])
                        except KeyboardInterrupt:
                            made.append("stopped")
                    self.assertEqual((made[-1] == "stopped", repository.number), (at < 5, 0 if at < 5 else 3))
                    if at == 5:
                        continue
                    if not twice:
                        # none waits
                        room = [t._library.room() for _ in range(3)]
                        number = call("apply", repository=repository._raw, did=DID.encode(), rev=tid(1).encode(), place=t._library.size(), root=room[0], previous=room[1], commit=room[2])
                        self.assertEqual(number, 26)
                    self.only(repository, 2)
