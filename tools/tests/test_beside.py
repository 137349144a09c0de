"""The jobs of the measurements beside a plain program, with programs that write what they are told to."""

import os
import tempfile
import unittest
import unittest.mock
from dataclasses import replace

from lib.beside import HEADS, JOBS, MESSAGES, Calls, Job, Measured, counted, listing, measure, shown, table, table_of_counted
from lib.commands import Stop
from lib.files import read, text_of, write
from tests.support import command, program

CHAIN = "bafyreigbtj4x7ip5legnfznufuopl4sg4knzc2cof6duas4b3q2fy6swua"


def of_messages(taken: int, to_write: int, to_check: int) -> str:
    line = f"a message: {to_write} ns to write, {to_check} ns to check, 2000 ns to hash, at the least"
    return f"100 keys, 25 messages of 900 bytes in all, {taken} taken, {CHAIN}\n{line}\n300 ns to write where the put is undone whole\n"


class BesideTest(unittest.TestCase):
    def setUp(self) -> None:
        room = tempfile.TemporaryDirectory()
        self.addCleanup(room.cleanup)
        self.room = room.name

    def saying(self, *texts: str) -> str:
        """A program that writes these texts, one at each call."""
        path = f"{self.room}/{len(os.listdir(self.room))}"
        for at, text in enumerate(texts):
            write(f"{path}-{at}", text)
        count = f'at=$(cat {path}-count 2>/dev/null || echo 0); echo $((at + 1)) > {path}-count'
        return program(path, f"#!/bin/sh\n{count}\nprintf '%s\\n' \"$@\" > {path}-words\ncat > {path}-given\ncat {path}-$at\n")

    def measured(self, job: Job, own: list[str], plain: list[str]) -> list[Measured]:
        return measure(job, self.saying(*own), self.saying(*plain), len(own))

    def test_the_least_of_all_turns(self) -> None:
        own = [of_messages(25, 500, 6000), of_messages(25, 400, 8000)]
        written, beside, checked = self.measured(MESSAGES, own, [of_messages(25, 200, 5000), of_messages(25, 250, 4000)])
        self.assertEqual((written.own, written.hashing, written.plain, written.turns), (400, None, 200, 2))
        self.assertEqual((checked.own, checked.hashing, checked.plain), (6000, 2000, 4000))
        self.assertEqual(checked.line(), "a message of one put checked: 6.0 µs; its hashing alone 2.0 µs, ratio 3.00; plain 4.0 µs, ratio 1.50")
        self.assertEqual(written.line(), "a message of one put written: 400 ns; plain 200 ns, ratio 2.00")
        self.assertEqual(beside.line(), "the same, beside undoing the put whole: 400 ns; plain 300 ns, ratio 1.33")

    def test_both_write_the_same(self) -> None:
        good = of_messages(25, 500, 6000)
        for own, plain in ((good, good.replace(CHAIN, CHAIN[::-1])), (of_messages(24, 1, 1), good), (of_messages(24, 1, 1), of_messages(24, 1, 1)), ("refused\n", "refused\n")):
            with self.assertRaisesRegex(Stop, r"\Amessages 100000 3: the plain program says "):
                self.measured(MESSAGES, [own], [plain])

    def test_a_line_that_lacks(self) -> None:
        good = of_messages(25, 500, 6000)
        with self.assertRaisesRegex(Stop, "the line of a message of one put written isn't there"):
            self.measured(MESSAGES, [good.partition("\n")[0]], [good])

    def test_own_hashing(self) -> None:
        writes = "100 keys, 25 writes, 1 a batch\nput: {0} ns a write at the least{1}\ndelete: {0} ns a write at the least{1}\nthe last commit is x\n"
        job = next(it for it in JOBS if it.name == "apply-1")
        put, delete = self.measured(job, [writes.format(50, ", 30 by edit alone, 20 its hashing alone")], [writes.format(40, "")])
        self.assertEqual((put.own, put.hashing, put.plain), (50, 20, 40))
        self.assertEqual(delete.line(), "a delete there: 50 ns; its hashing alone 20 ns, ratio 2.50; plain 40 ns, ratio 1.25")

    def test_an_input(self) -> None:
        job = replace(next(it for it in JOBS if it.word == "build"), counts=(20,), rounds=1)
        text = "20 keys, 7 nodes, 30 microseconds, 20 its hashing alone\n"
        (built,) = self.measured(job, [text], [text])
        self.assertEqual((built.own, built.hashing), (30_000, 20_000))
        words, given = (sorted(it for it in os.listdir(self.room) if it.endswith(end)) for end in ("-words", "-given"))
        self.assertEqual({read(f"{self.room}/{it}") for it in words}, {"build\n1\n"})
        self.assertEqual({read(f"{self.room}/{it}") for it in given}, {listing(20).decode()})

    def test_each_job_stands_alone(self) -> None:
        self.assertEqual(len({it.name for it in JOBS}), len(JOBS))
        for job in JOBS:
            small = job.smaller(100)
            self.assertEqual((small.rounds, len(small.counts)), (1, len(job.counts)))
            self.assertTrue(all(one <= other for one, other in zip(small.counts, job.counts)), job.name)

    def test_table(self) -> None:
        self.assertEqual([shown(it) for it in (999, 1_000, 999_949, 2_500_000)], ["999 ns", "1.0 µs", "999.9 µs", "2.5 ms"])
        found = self.measured(MESSAGES, [of_messages(25, 400, 6000)], [of_messages(25, 200, 5000)])
        head, rule, *rows = table(found).splitlines()
        self.assertEqual((head, rule.count("---")), (f"| {' | '.join(HEADS)} |", len(HEADS)))
        self.assertEqual(rows[0].split(" | ")[1:3], ['`make bench ARGS="--only messages"`', "400 ns"])
        self.assertEqual({it.count("|") for it in (head, rule, *rows)}, {len(HEADS) + 1})


    def counted(self, job: Job, counts: str) -> list[str]:
        """What is told of instructions where valgrind counts as this text of a shell says."""
        program(f"{self.room}/valgrind", f"#!/bin/sh\nfor it; do last=$it; done\nshift 4\n\"$@\"\n{counts}\n")
        texts = [of_messages(25, 500, 6000)] * 4
        with unittest.mock.patch.dict(os.environ, {"PATH": f"{self.room}:{os.environ['PATH']}"}):
            return [it.line() for it in counted(job, self.saying(*texts), self.saying(*texts))]

    def test_instructions(self) -> None:
        lines = self.counted(MESSAGES, 'echo "==7== Collected : $((last * 2500 + 100000))" >&2')
        self.assertEqual(lines, [f"a message of one put {it}: 100 instructions; plain 100, ratio 1.00" for it in ("written", "checked")])
        calls = Calls("a thing", "a", "b", r"(\d+) messages", 2)
        self.assertEqual((calls.of_round("7 messages"), replace(calls, number="").of_round("7 messages")), (14, 1))

    def test_calls_that_are_not_there(self) -> None:
        with self.assertRaisesRegex(Stop, r"\Amessages: there are no calls of bench::messages::written\*\Z"):
            self.counted(MESSAGES, 'echo "==7== Collected : 0" >&2')
        with self.assertRaisesRegex(Stop, r"\Avalgrind .* ends with status 3\Z"):
            self.counted(MESSAGES, "exit 3")

    def test_table_of_instructions(self) -> None:
        head, rule, *rows = table_of_counted([]).splitlines()
        self.assertEqual((head.count("|"), rule.count("|"), rows), (5, 5, []))


class BenchTest(unittest.TestCase):
    def test_the_page_has_places_for_the_tables(self) -> None:
        page, bench = text_of("docs/PERFORMANCE.md"), command("bench")
        for begin in (bench.TIMES, bench.INSTRUCTIONS):
            again = bench.with_part(page, begin, "another\n")
            self.assertIn(f"{begin}another\n<!-- end -->\n", again)
            self.assertEqual(again.partition(begin)[0], page.partition(begin)[0])

    def test_a_page_without_one(self) -> None:
        with self.assertRaisesRegex(Stop, "the lines between which the table stands are gone"):
            command("bench").with_part("a page\n", "a line\n", "a table\n")
