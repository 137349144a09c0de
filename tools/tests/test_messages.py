"""The plain model of messages: what it says of the examples, of trees that it builds anew, and of messages that it makes."""

import contextlib
import io
import os
import random
import tempfile
import unittest

from lib import made_messages, messages
from lib.exports import export_in
from lib.files import bytes_of, text_of
from lib.inversions import Undoing, bytes_of_shape, fault_of, shape_in
from lib.made_input import made_keys
from lib.model import Fault, Tree, cid_in, cid_of, text_of as text_of_cid
from lib.programs import Outcome
from tests.model_program import answer
from tests.support import command, program, ran


class InversionsTest(unittest.TestCase):
    def test_beside_trees_that_are_built_anew(self) -> None:
        for seed in range(60):
            pick = random.Random(seed)
            keys = made_keys(pick, pick.choice([1, 3, 8, 30, 150]))
            leaves = {key: cid_of(key) for key in keys if pick.random() < 0.7}
            tree, number = Tree(leaves, {}), pick.choice([0, 1, 2, 5, 40])
            changes = sorted({pick.choice(keys): pick.choice([None, cid_of(pick.randbytes(2))]) for _ in range(number)}.items())
            blocks = {cid_of(it): it for it in tree.order}
            undoing = Undoing(blocks, changes, tree.root)
            old = Tree({key: value for key, value in {**leaves, **dict(changes)}.items() if value}, {})
            self.assertEqual((undoing.fault, undoing.root), ("", old.root))
            self.assertEqual(undoing.values, [leaves.get(key) for key, _ in changes])
            self.assertEqual(undoing.asked, len({*undoing.read}))
            self.assertEqual({*old.order, *undoing.read} & {*tree.order}, {*tree.order})
            for gone in undoing.read:
                fewer = Undoing({cid: it for cid, it in blocks.items() if it != gone}, changes, tree.root)
                self.assertEqual(fewer.fault, f"BlockMissing({text_of_cid(cid_of(gone))})")

    def test_nodes_are_read_back(self) -> None:
        for block in Tree({b"a/%d" % at: cid_of(b"") for at in range(40)}, {}).order:
            shape = shape_in(block)
            self.assertTrue(shape and bytes_of_shape(shape) == block)
        self.assertIsNone(shape_in(b"\xa0"))

    def test_root_that_no_pairs_have(self) -> None:
        before, after, change, *nodes = text_of("examples/lost.txt").split("\n")
        _, key, _, has = change.split()
        blocks = {cid_of(bytes.fromhex(it)): bytes.fromhex(it) for it in nodes}
        told = (key.encode(), None, cid_in(has))
        self.assertIsNone(fault_of(blocks, cid_in(before), cid_in(after), [told]))
        self.assertEqual(fault_of(blocks, cid_in(after), cid_in(after), [told]), ("OtherRoot", -1))
        self.assertEqual(fault_of(blocks, cid_in(before), cid_in(after), [(told[0], None, cid_of(b""))]), ("OtherValue", 0))


class MessagesTest(unittest.TestCase):
    def setUp(self) -> None:
        self.stream = bytes_of("examples/messages.bin")
        self.root = export_in(bytes_of("examples/export.car")).root

    def told(self, message: bytes) -> str:
        """What is said of the first of the examples' messages, changed."""
        return messages.judged(self.root, message)[1][0]

    def test_example(self) -> None:
        ended, seen = messages.judged(self.root, self.stream)
        self.assertEqual((ended.status, ended.err, seen), (1, b"msthost: message 11: OtherRoot\n", [*(10 * ["none"]), "OtherRoot"]))
        ended, _ = messages.judged(self.root, self.stream[:15457], True)
        self.assertEqual([line.split(b" ", 3)[1:2] for line in ended.out.splitlines()[:2]], [[b"3jzfcijpj2z2f"], [b"app.bsky.feed.post/3jzfcijpj2z2f"]])
        self.assertIn(b'\ncreate app.bsky.feed.post/3jzfcijpj2z2g {"text":"two"}\n', ended.out)

    def test_faults(self) -> None:
        first, rest = messages.cut(self.stream)
        self.assertEqual(self.told(first), "none")
        self.assertEqual(self.told(rest), "OtherPrevious")
        self.assertEqual(self.told(first[:-1]), "Cbor(Truncated)")
        self.assertEqual(self.told(first.replace(b"#commit", b"#Commit")), "NotCommit")
        self.assertEqual(self.told(first.replace(b"\x68prevData", b"\x68prevDate")), "BadField(prevData)")
        self.assertEqual(self.told(first.replace(b"\x66create", b"\x66update")), "operation: BadOp")
        self.assertEqual(self.told(first.replace(b"T12:00", b"t12:00")), "BadTime")
        self.assertEqual(self.told(first + bytes(5_000_000)), "none")
        self.assertEqual(self.told(messages.HEADER + b"\xff" + bytes(5_000_000)), "MessageSize")

    def test_cut(self) -> None:
        for stream, length in ((b"\x01\x01\x01", 2), (b"\xa0\x80\x80", 2), (b"\x01\xc0\x01\x01", 3), (b"\x01\x82\x01", 3), (b"\x01\x42a", 3), (b"\x01\x18\x01", 3), (b"", 0)):
            self.assertEqual(messages.cut(stream), (stream[:length], stream[length:]))

    def test_words(self) -> None:
        word = text_of_cid(self.root).encode()
        self.assertIsNone(messages.fault_of_word(word))
        faults = {messages.fault_of_word(other(word)) for other in made_messages.OTHER_WORDS}
        self.assertEqual(faults, {"BadLength", "BadPrefix", "BadLetter", "BadBits", "NotThisProfile"})

    def test_values(self) -> None:
        record = b"\xa2\x61a\x82\x20\xf6\x61b\xa1\x61c\x42\xfb\xff"
        self.assertEqual(messages.word_of(record), b'{"a":[-1,null],"b":{"c":{"$bytes":"+/8"}}}')
        self.assertEqual(messages.word_of(b"\xa1\x61a\x1b\0\x20\0\0\0\0\0\0"), b"a161611b0020000000000000")
        with self.assertRaises(Fault):
            messages.value_in(b"\xa0\xa0")

    def test_written_are_true(self) -> None:
        """The message of a batch is what a draft of it tells, and it is true of the repository before, in a stream too."""
        history = made_messages.History(random.Random(2))
        root, stream = history.repository.tree().root, b""
        for _ in range(20):
            step = history.step()
            message = messages.written(step.words, step.old, step.new)
            self.assertEqual(made_messages.spoilt(random.Random(1), step, [], False), (step.old.tree().root, message))
            stream += message
        ended, seen = messages.judged(root, stream)
        self.assertEqual((seen, ended.out.split()[-2]), (20 * ["none"], text_of_cid(history.repository.tree().root).encode()))

    def test_batches(self) -> None:
        seen = set()
        for number in range(120):
            made = made_messages.made_batch(random.Random(number), number)
            ended = messages.commit_event(made.words, made.lines())
            seen.add(messages.name_of(ended.err.decode().removeprefix("msthost: ").rstrip()))
            if not ended.status:
                message = messages.event_in(ended.out)
                self.assertEqual(messages.judged(message.before, ended.out)[1], ["none"])
        self.assertEqual({*messages.UNTOLD, "BadLine"} - seen, set())

    def test_lines(self) -> None:
        words = messages.Words(b"did:web:x", 13 * b"3", None, 1, b"2026-11-30T12:00:00Z", b"00")
        told = lambda lines: messages.commit_event(words, lines).err.decode().removeprefix("msthost: ").rstrip()
        self.assertEqual(told(b"a/b a0\n\nput a/c a0\r\n"), "")
        for lines, fault in ((b"a/b a0\n\n\ncreate a/b a0", "line 4: KeyExists"), (b"a/b a0\n\nupdate a/c a0", "line 3: NoSuchKey"), (b"\nput a a0", "line 2: BadKey"),
                             (b"a/b 80", "line 1: NotAMap"), (b"a/b a1\na/b", "line 1: BadRecord(Truncated)"), (b"\na/b a0", "line 2: BadLine"), (b"a/b a0\n\n\n", "NoBatch"),
                             (b"\ndelete a/b\nx", "line 2: NoSuchKey"), (b"\nput a/b a0\nput a/b  a0", "line 3: BadLine"), (b"put a/b a0", "line 1: BadLine"), (b"", "NoBatch")):
            self.assertEqual(told(lines), fault)
        words = words._replace(rev=messages.FIRST_REV)
        self.assertEqual([told(lines) for lines in (b"a/b a0\n\nput a/b a0", b"\nput a/b a0")], ["RevOrder", ""])

    def test_of_a_state(self) -> None:
        words = messages.Words(b"did:web:x", 13 * b"3", None, 1, b"2026-11-30T12:00:00Z", b"00")
        told = lambda words, lines: messages.sync_event(words, lines)
        self.assertEqual(told(words, b"a/b a0\n"), told(words._replace(since=b"x"), b"a/c a0\n\nput a/b a0\ndelete a/c\n"))
        self.assertTrue(told(words, b"a/b a0\n").out.startswith(messages.HEADER_OF_STATE))
        first, long = words._replace(rev=messages.FIRST_REV), words._replace(sig=20_000 * b"0")
        for beside, lines, fault in ((words, b"", "NoBatch"), (words, b"a/b a0\n\nupdate a/c a0", "line 3: NoSuchKey"), (first, b"a/b a0\n\nput a/c a0", "RevOrder"),
                                     (words._replace(seq=2**63), b"a/b a0", "BadSeq"), (words._replace(time=b""), b"a/b a0", "BadTime"), (long, b"a/b a0", "BlocksSize")):
            self.assertEqual(told(beside, lines).err.decode(), f"msthost: {fault}\n")
        self.assertEqual(told(first, b"a/b a0").status, 0)

    def test_each_fault_that_is_explained(self) -> None:
        """What the program explains of messages comes of messages or of batches."""
        table = text_of("crates/explain_command/src/table.rt").partition("FAULTS_OF_MESSAGES")[2]
        explained = {name for name, *_ in command("fault-table").faults_of(table)}
        reached = {it.removeprefix("operation: ").partition("(")[0] for it in (*messages.NAMES, *messages.UNTOLD)}
        self.assertTrue({"Cbor", "BadOp", "NoBatch"} <= explained <= reached, explained - reached)

    def test_the_same_by_their_seed(self) -> None:
        for number in (0, 20, len(made_messages.KINDS)):
            made = [made_messages.made_stream(random.Random(seed), number) for seed in (3, 3, 4)]
            self.assertEqual(made[0], made[1])
            self.assertNotEqual(made[0], made[2])


class ComparedTest(unittest.TestCase):
    """tools/compare-runs, over a program that answers as the model does."""

    def test_by_a_program(self) -> None:
        with tempfile.TemporaryDirectory() as room:
            said = ran("compare-runs", program(f"{room}/model"), "1", "--exports", "0", "--messages", "5")
            self.assertEqual((said.returncode, said.stdout.splitlines()[-1]), (0, "1 rounds, 0 wrong"), said.stdout)
            self.assertRegex(said.stdout, r"(?m)^[5-9] messages: none \d+, (.*\n)1 batches: none 1\n")

    def test_of_all_kinds(self) -> None:
        compared = command("compare-runs")
        compared.outcome = lambda program, words, given: Outcome(*answer(words, given))  # type: ignore[attr-defined]
        rounds = compared.Rounds("", 0, 350)
        self.assertTrue(rounds.streams(random.Random(1)) and rounds.streams(random.Random(2)))
        self.assertEqual({*messages.NAMES} - {*rounds.of_messages}, set())
        self.assertEqual({*messages.UNTOLD} - {*rounds.of_batches}, set())

    def test_a_wrong_program(self) -> None:
        compared = command("compare-runs")
        compared.outcome = lambda program, words, given: Outcome(0, b"", b"")  # type: ignore[attr-defined]
        rounds = compared.Rounds("", 0, 1)
        with contextlib.redirect_stdout(io.StringIO()) as said:
            self.assertFalse(rounds.streams(random.Random(1)))
        os.remove(said.getvalue().splitlines()[0].rpartition(" < ")[2])
