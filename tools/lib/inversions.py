"""A plain model of operation inversion: changes undone on some nodes of the tree after them, by the definitions.

The tree before is made from left to right. Of each layer that is open there are the rows so far; below the lowest of them may
stand a link to a node that nobody has read yet.
"""

from typing import NamedTuple

from lib.exports import node_in
from lib.model import Fault, cid_of, data_of, head, layer, link, text, text_of

# The link before a key, the key, and its value.
Row = tuple[bytes | None, bytes, bytes]
# A key, and what it is to have.
Change = tuple[bytes, bytes | None]


class Shape(NamedTuple):
    """The rows of a node, and the link behind the last."""

    rows: list[Row]
    last: bytes | None


def shape_in(block: bytes) -> Shape | None:
    """The node that a block is, if it is one."""
    try:
        node = node_in(block)
    except Fault:
        return None
    links = [node.left, *(below for _, _, below in node.entries)]
    return Shape([(before, key, value) for before, (key, value, _) in zip(links, node.entries)], links[-1])


def bytes_of_shape(shape: Shape) -> bytes:
    links = [it for it, _, _ in shape.rows] + [shape.last]
    entries, before = b"", b""
    for (_, key, value), below in zip(shape.rows, links[1:]):
        same = next((n for n, (a, b) in enumerate(zip(before, key)) if a != b), min(len(before), len(key)))
        entries += b"\xa4" + text(b"k") + data_of(key[same:]) + text(b"p") + head(0, same) + text(b"t") + link(below) + text(b"v") + link(value)
        before = key
    return b"\xa2" + text(b"e") + head(4, len(shape.rows)) + entries + text(b"l") + link(links[0])


def ascend(rows: list[Row]) -> bool:
    return all(a[1] < b[1] for a, b in zip([(None, b"", b""), *rows], rows))


class Stopped(Exception):
    """A node isn't given, is none, or stands below the lowest layer."""


class Undoing:
    """Changes that are made to the tree with a root, of which these blocks have some nodes. Keys of changes ascend."""

    def __init__(self, blocks: dict[bytes, bytes], changes: list[Change], root: bytes) -> None:
        self.blocks, self.changes = blocks, changes
        self.open: list[list[Row]] = []
        self.waiting: bytes | None = None
        self.asked, self.layers, self.is_tree = 0, 0, True
        self.read: list[bytes] = []
        self.values: list[bytes | None] = []
        self.root, self.fault = b"", ""
        most = 1
        try:
            top = self.ask(root)
            at = layer(top.rows[0][1]) if top.rows else 0
            most += sum(2 * at if value is None else at for _, value in changes)
            self.layers = max([at + 1, *(layer(key) + 1 for key, value in changes if value is not None)])
            self.node(top, changes, at, self.layers - 1 - at)
            self.root = self.top()
        except Stopped as why:
            self.fault = str(why)
        if self.asked > most or not self.is_tree or not all(map(ascend, self.open)):
            self.fault = "NotTree"

    def ask(self, cid: bytes) -> Shape:
        self.asked += 1
        if cid not in self.blocks:
            raise Stopped(f"BlockMissing({text_of(cid)})")
        shape = shape_in(self.blocks[cid])
        if not shape:
            raise Stopped(f"BadNode({text_of(cid)})")
        self.read.append(self.blocks[cid])
        return shape

    # Going through the tree.

    def node(self, shape: Shape, changes: list[Change], below: int, depth: int) -> None:
        """A node at this depth, over so many layers at most."""
        for before, key, value in shape.rows:
            self.gap(before, [it for it in changes if it[0] < key], below, depth + 1)
            here = [new for changed, new in changes if changed == key]
            self.values += [value for _ in here]
            for kept in here or [value]:
                if kept is not None:
                    self.pair(depth, key, kept)
            changes = [it for it in changes if it[0] > key]
        self.gap(shape.last, changes, below, depth + 1)

    def gap(self, cid: bytes | None, changes: list[Change], most: int, depth: int) -> None:
        """What stands between two keys, of so many layers at most."""
        if cid is None:
            for key, value in changes:
                self.values.append(None)
                if value is not None:
                    self.pair(self.layers - 1 - layer(key), key, value)
        elif not most:
            raise Stopped("TooDeep")
        elif changes:
            self.node(self.ask(cid), changes, most - 1, depth)
        else:
            self.open_to(depth)
            self.part(cid, most, depth)

    # What is made.

    def open_to(self, count: int) -> None:
        """Has so many layers open."""
        while len(self.open) < count:
            shape = self.ask(self.waiting) if self.waiting else Shape([], None)
            self.open.append(shape.rows)
            self.waiting = shape.last

    def closed_to(self, count: int) -> bytes | None:
        """Has no more than so many layers open, and answers the link to what was below."""
        while len(self.open) > count:
            rows = self.open.pop()
            if rows or self.waiting:
                self.waiting = self.made(Shape(rows, self.waiting))
        below, self.waiting = self.waiting, None
        return below

    def made(self, shape: Shape) -> bytes:
        self.is_tree &= ascend(shape.rows)
        return cid_of(bytes_of_shape(shape))

    def pair(self, depth: int, key: bytes, value: bytes) -> None:
        self.open_to(depth + 1)
        self.open[depth].append((self.closed_to(depth + 1), key, value))

    def part(self, cid: bytes | None, most: int, depth: int) -> None:
        """A subtree of so many layers at most, which joins what stands at this depth."""
        if cid is None:
            return
        if not most:
            raise Stopped("TooDeep")
        if len(self.open) == depth:
            if not self.waiting:
                self.waiting = cid
                return
            self.open_to(depth + 1)
        shape = self.ask(cid)
        self.part(shape.rows[0][0] if shape.rows else shape.last, most - 1, depth + 1)
        if shape.rows:
            self.open[depth].append((self.closed_to(depth + 1), *shape.rows[0][1:]))
            self.open[depth] += shape.rows[1:]
            self.waiting = shape.last

    def top(self) -> bytes:
        while self.open and not self.open[0]:
            del self.open[0]
        if self.open:
            below = self.closed_to(1)
            return self.made(Shape(self.open.pop(), below))
        if not self.waiting:
            return self.made(Shape([], None))
        cid = self.waiting
        for _ in range(self.layers):
            shape = self.ask(cid)
            if shape.rows or not shape.last:
                return cid
            cid = shape.last
        raise Stopped("TooDeep")


def fault_of(blocks: dict[bytes, bytes], before: bytes, after: bytes, told: list[tuple[bytes, bytes | None, bytes | None]]) -> tuple[str, int] | None:
    """What is wrong with changes, each a key with what it had and has, whose keys ascend: the fault, and the place of the change
    where it is a value's."""
    undoing = Undoing(blocks, [(key, had) for key, had, _ in told], after)
    if undoing.fault:
        return undoing.fault, -1
    for place, (value, (_, _, has)) in enumerate(zip(undoing.values, told)):
        if value != has:
            return "OtherValue", place
    return None if undoing.root == before else ("OtherRoot", -1)
