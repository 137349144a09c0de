"""Trees as `msthost tree` prints them, read and drawn: a column for each key, a row for each layer, a box for each node."""

import binascii
from collections.abc import Callable
from typing import NamedTuple

from lib.model import cid_in, cid_of, layer
from lib.svg import GREY, INK, Picture, width_of

# What a node is filled with: one that stays, one that comes, one that goes; and one that both of two trees have, with its words.
STAYS, COMES, GOES = ("#f3f5f7", "#5b6770"), ("#d3f2d9", "#1f7a35"), ("#fde3cf", "#b4560f")
SHARED, PALE = ("#eceff1", "#c3cad0"), "#8a949c"
# How large a key's name is, and how wide a tree may be whose names don't stand upright.
SIZE, WIDEST = 13, 1000


class Faulty(Exception):
    """Why a text is no tree."""


class Reader:
    """Reads the one form of DAG-CBOR that nodes have."""

    def __init__(self, data: bytes) -> None:
        self.data, self.at = data, 0

    def take(self, count: int) -> bytes:
        self.at += count
        if self.at > len(self.data):
            raise Faulty("a node ends too early")
        return self.data[self.at - count : self.at]

    def head(self, major: int) -> int:
        first = self.take(1)[0]
        if first >> 5 != major or first & 31 > 27:
            raise Faulty("a block is no node")
        low = first & 31
        return low if low < 24 else int.from_bytes(self.take(1 << (low - 24)), "big")

    def exactly(self, wanted: bytes) -> None:
        if self.take(len(wanted)) != wanted:
            raise Faulty("a block is no node")

    def field(self, name: bytes) -> None:
        self.exactly(b"\x61" + name)

    def data_of(self) -> bytes:
        return self.take(self.head(2))

    def link(self) -> bytes | None:
        if self.data[self.at : self.at + 1] == b"\xf6":
            self.at += 1
            return None
        self.exactly(b"\xd8\x2a")
        return self.data_of()[1:]


class Node:
    """A node: its CID, its keys with the CIDs of their records, its links (one more than keys), and its keys' columns."""

    def __init__(self, cid: bytes, data: bytes) -> None:
        reader, before = Reader(data), b""
        self.cid = cid
        self.keys: list[bytes] = []
        self.values: list[bytes] = []
        self.first = self.last = 0
        after: list[bytes | None] = []
        reader.exactly(b"\xa2")
        reader.field(b"e")
        for _ in range(reader.head(4)):
            reader.exactly(b"\xa4")
            reader.field(b"k")
            rest = reader.data_of()
            reader.field(b"p")
            before = before[: reader.head(0)] + rest
            reader.field(b"t")
            after.append(reader.link())
            reader.field(b"v")
            value = reader.link()
            if value is None:
                raise Faulty("a key has no record")
            self.keys.append(before)
            self.values.append(value)
        reader.field(b"l")
        self.links = [reader.link(), *after]


class Tree:
    """What `msthost tree` printed, with so many zero bits a layer."""

    def __init__(self, text: str, bits: int = 2) -> None:
        lines = text.splitlines()
        if not lines:
            raise Faulty("there is no root: what `msthost tree` writes is read from standard input")
        self.nodes: dict[bytes, Node] = {}
        self.names: dict[bytes, str] = {}
        try:
            self.root = cid_in(lines[0])
            for line in lines[1:]:
                words, _, data = line.partition(" ")
                self.add(words, cid_in(words), bytes.fromhex(data))
        except (binascii.Error, ValueError) as why:
            raise Faulty(f"this is not what `msthost tree` writes: {why}") from None
        self.pairs: list[tuple[bytes, bytes]] = []
        self.rows: list[list[Node]] = []
        self.columns: dict[bytes, int] = {}
        self.place(self.root, 0)
        # The layer of the top's row; each row below is the next lower one.
        self.top = layer(self.nodes[self.root].keys[0], bits) if self.pairs else 0
        for depth, row in enumerate(self.rows):
            if any(layer(key, bits) != self.top - depth for node in row for key in node.keys):
                raise Faulty(f"a key stands in another layer than its own, by {bits} bits a layer")

    def add(self, words: str, cid: bytes, data: bytes) -> None:
        if cid_of(data) != cid:
            raise Faulty(f"a line has another block than its CID says: {words}")
        self.nodes[cid] = Node(cid, data)
        self.names[cid] = words

    def place(self, cid: bytes, depth: int) -> None:
        """Gives the keys below a node their columns, in order, and the node its row."""
        if cid not in self.nodes:
            raise Faulty("a node is missing")
        node = self.nodes[cid]
        while len(self.rows) <= depth:
            self.rows.append([])
        self.rows[depth].append(node)
        node.first = len(self.pairs)
        for at, link in enumerate(node.links):
            if link:
                self.place(link, depth + 1)
            if at < len(node.keys):
                self.columns[node.keys[at]] = len(self.pairs)
                self.pairs.append((node.keys[at], node.values[at]))
        node.last = len(self.pairs) - 1


def shared_by(keys: list[bytes]) -> bytes:
    """The part up to a slash that all keys begin with."""
    start = keys[0][: keys[0].rfind(b"/") + 1] if keys else b""
    while start and not all(key.startswith(start) for key in keys):
        start = start[: start.rstrip(b"/").rfind(b"/") + 1]
    return start


class Look(NamedTuple):
    """How a node is drawn: its ground, its edge, its words."""

    fill: str
    stroke: str
    ink: str = INK
    dashed: bool = False


class Layout:
    """Where a tree's keys and nodes stand, with so many rows free above them."""

    def __init__(self, tree: Tree, names: dict[bytes, str], widest: float = WIDEST, free: int = 0) -> None:
        self.tree, self.names = tree, names
        wide = [max(width_of(names[key], SIZE) + 12, 24) for key, _ in tree.pairs]
        longest = max((width_of(it, SIZE) for it in names.values()), default=0)
        self.upright = sum(wide) > widest
        wide = [18.0] * len(wide) if self.upright else wide
        self.tall = (longest if self.upright else SIZE + 2) + 16
        self.left, self.gap = 78.0, 34.0
        self.top = 76.0 + free * (self.tall + self.gap)
        self.edges = [self.left]
        for it in wide:
            self.edges.append(self.edges[-1] + it)
        self.boxes: dict[int, tuple[float, float, float]] = {}
        for depth in reversed(range(len(tree.rows))):
            for node in tree.rows[depth]:
                self.boxes[id(node)] = self.box(node, depth)

    @property
    def right(self) -> float:
        return max(self.edges[-1], self.left + 60)

    @property
    def bottom(self) -> float:
        return self.top + len(self.tree.rows) * (self.tall + self.gap) - self.gap

    def height_of(self, depth: int) -> float:
        return self.top + depth * (self.tall + self.gap)

    def box(self, node: Node, depth: int) -> tuple[float, float, float]:
        """Where a node stands: its left edge, its upper one, and its width."""
        y = self.height_of(depth)
        if node.keys:
            x = self.edges[self.tree.columns[node.keys[0]]] + 2
            return x, y, self.edges[self.tree.columns[node.keys[-1]] + 1] - 2 - x
        # A node without keys stands above the one that it links to.
        below = [it for it in (self.tree.rows[depth + 1] if node.links[0] else []) if it.cid == node.links[0] and it.first == node.first]
        x, _, wide = self.boxes[id(below[0])] if below else (self.left, y, 40.0)
        return x + wide / 2 - 9, y, 18.0

    def ends(self, node: Node, depth: int) -> list[tuple[float, float, float, float]]:
        """Where a node's links begin and end."""
        found = []
        x, y, wide = self.boxes[id(node)]
        begins = [x + 4, *(self.edges[self.tree.columns[key]] for key in node.keys[1:]), x + wide - 4]
        for at, link in enumerate(node.links):
            if link:
                child = next(it for it in self.tree.rows[depth + 1] if it.cid == link and node.first <= it.first <= node.last)
                to_x, to_y, to_wide = self.boxes[id(child)]
                middle = to_x + to_wide / 2
                is_outer = bool(node.keys) and at in (0, len(node.keys))
                found.append((begins[at] if is_outer else min(max(middle, x + 6), x + wide - 6), y + self.tall, middle, to_y))
        return found


def counted(count: int, word: str) -> str:
    return f"{count} {word}{'s' * (count != 1)}"


def heads_of(tree: Tree, start: bytes) -> list[str]:
    """What stands above a tree: how large it is, and what all of its keys begin with."""
    shown = f"{counted(len(tree.pairs), 'key')} in {counted(len(tree.nodes), 'node')}; the root's CID ends in {tree.names[tree.root][-6:]}"
    return [shown, *([f"Each key begins with {start.decode(errors='replace')}, which is left out here."] if start else [])]


def drawn_at(layout: Layout, picture: Picture, marked: tuple[bytes, ...], look: Callable[[Node], Look]) -> None:
    """Draws the nodes of a tree, each with its look, below their links; these keys are bold."""
    tree = layout.tree
    for depth, row in enumerate(tree.rows):
        picture.text(12, layout.height_of(depth) + layout.tall / 2 + 4, f"layer {tree.top - depth}", 12, GREY, "start")
        for node in row:
            for ends in layout.ends(node, depth):
                picture.curve(*ends)
    for node in (node for row in tree.rows for node in row):
        x, y, wide = layout.boxes[id(node)]
        fill, stroke, ink, dashed = look(node)
        picture.box(x, y, wide, layout.tall, fill, stroke, dashed)
        for key in node.keys:
            at = tree.columns[key]
            middle, bold = (layout.edges[at] + layout.edges[at + 1]) / 2, key in marked
            if layout.upright:
                picture.text(middle + 4, y + layout.tall - 8, layout.names[key], SIZE, ink, anchor="start", bold=bold, upright=True)
            else:
                picture.text(middle, y + layout.tall / 2 + 4, layout.names[key], SIZE, ink, bold=bold)


def names_of(tree: Tree, start: bytes) -> dict[bytes, str]:
    return {key: key[len(start) :].decode(errors="replace") for key, _ in tree.pairs}


def drawn(tree: Tree, title: str, beside: Tree | None = None, is_before: bool = False, start: bytes | None = None, marked: tuple[bytes, ...] = ()) -> Picture:
    """The picture of a tree. Beside another tree the nodes that one of the two lacks are marked, and so are these keys."""
    start = shared_by([key for key, _ in tree.pairs]) if start is None else start
    layout = Layout(tree, names_of(tree, start))
    picture = Picture(layout.right + 14, layout.bottom + 12, title)
    picture.heads(*heads_of(tree, start))

    def look(node: Node) -> Look:
        if beside is None or node.cid in beside.nodes:
            return Look(*STAYS)
        return Look(*(GOES if is_before else COMES), dashed=is_before)

    drawn_at(layout, picture, marked, look)
    return picture


def with_caption(picture: Picture, bits: int = 2) -> Picture:
    """The picture of a tree with what its box, word and line stand for."""
    y = picture.height + 8
    picture.box(14, y, 30, 18, *STAYS)
    picture.text(54, y + 13, "a node, one block under its CID: its keys, and a link before, between and behind them", 12, GREY, "start")
    picture.text(29, y + 36, "owl", SIZE)
    picture.text(54, y + 36, "a key; its node has the CID of its record beside it. Its layer is the number of zero bits", 12, GREY, "start")
    picture.text(54, y + 52, f"with which its SHA-256 begins, divided by {bits}: one key of {2**bits} stands a layer higher", 12, GREY, "start")
    picture.curve(29, y + 62, 29, y + 80)
    picture.text(54, y + 75, "a link: the CID of the node with all keys that lie between", 12, GREY, "start")
    picture.height = y + 90
    return picture


def lacking(one: Tree, other: Tree) -> int:
    """How many nodes of one tree the other lacks."""
    return sum(cid not in other.nodes for cid in one.nodes)


def before_and_after(before: Tree, after: Tree, title: str, marked: tuple[bytes, ...]) -> Picture:
    """Two trees, one above the other, with the nodes that go and those that come."""
    start = shared_by([key for key, _ in [*before.pairs, *after.pairs]])
    gone, come = lacking(before, after), lacking(after, before)
    above = drawn(before, f"{title}: before", after, True, start, marked)
    below = drawn(after, f"{title}: after", before, False, start, marked)
    whole = Picture(max(above.width, below.width), above.height + below.height + 46, title)
    whole.put(above, 0, 0)
    whole.put(below, 0, above.height + 12)
    y = above.height + below.height + 22
    legend = ((GOES, f"{gone} nodes that go", True), (COMES, f"{come} nodes that come", False), (STAYS, "nodes that stay", False))
    for at, ((fill, stroke), words, dashed) in enumerate(legend):
        x = 14 + 200 * at
        whole.box(x, y, 22, 13, fill, stroke, dashed, 3)
        whole.text(x + 30, y + 11, words, 12, GREY, "start")
    return whole


def side_by_side(old: Tree, new: Tree, title: str) -> Picture:
    """Two trees, one beside the other by their layers, with what they share in grey; the keys that differ are bold."""
    start = shared_by([key for key, _ in [*old.pairs, *new.pairs]])
    marked = tuple(key for key, _ in {*old.pairs} ^ {*new.pairs})
    gone, come = lacking(old, new), lacking(new, old)
    whole = Picture(0, 0, title)
    left = 0.0
    for tree, other, colours in ((old, new, GOES), (new, old, COMES)):
        layout = Layout(tree, names_of(tree, start), WIDEST / 2, max(other.top - tree.top, 0))
        part = Picture(layout.right + 14, layout.bottom + 12, "Old" if tree is old else "New")
        part.heads(heads_of(tree, b"")[0])
        drawn_at(layout, part, marked, lambda node: Look(*SHARED, PALE) if node.cid in other.nodes else Look(*colours, dashed=tree is old))  # noqa: B023
        whole.put(part, left, 42)
        left += part.width + 20
        whole.width, whole.height = left, max(whole.height, part.height + 42)
    whole.heads(*heads_of(new, start)[1:])
    ours, theirs, both = (counted(it, "node") for it in (gone, come, len(old.nodes) - gone))
    legend = ((GOES, f"{ours} of the old tree alone", True), (COMES, f"{theirs} of the new tree alone", False), (SHARED, f"{both} of both, not read", False))
    x, y = 14.0, whole.height + 10
    for (fill, stroke), words, dashed in legend:
        whole.box(x, y, 22, 13, fill, stroke, dashed, 3)
        whole.text(x + 30, y + 11, words, 12, GREY, "start")
        x += 60 + width_of(words, 12)
    whole.width, whole.height = max(whole.width, x), y + 24
    return whole
