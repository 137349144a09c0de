"""Made exports of repositories, most of them spoilt: what they are made of has its true CIDs or not, and each fault comes.

A way to spoil changes a draft of the repository, of which the file has the true CIDs whatever stands in it; or the sections that
are made of it; or the pieces of the file, which are its header and each section with its length.
"""

from collections.abc import Callable
from random import Random

from lib.exports import commit_bytes
from lib.made_input import made_keys, made_map, made_rev, usual_keys, usual_record
from lib.model import Tree, car_of, cid_of, data_of, head, layer, link, text, varint

Spelled = Callable[[bytes], bytes]


class Branch:
    """A node with those below it: the branch before its first row, and for each row its key, the CID of its record, and the branch
    behind it. How its block is spelled may be turned."""

    def __init__(self, left: "Branch | None" = None, rows: "list[tuple[bytes, bytes, Branch | None]] | None" = None) -> None:
        self.left, self.rows = left, rows or []
        self.turned: Spelled = bytes
        self.shares = True

    def below(self) -> "list[Branch]":
        return [it for it in (self.left, *(below for _, _, below in self.rows)) if it]

    def all(self) -> "list[Branch]":
        return [self, *(it for below in self.below() for it in below.all())]

    def block(self, blocks: list[bytes]) -> bytes:
        """The block of this node; those below it come to the others."""
        entries, before = b"", b""
        left = link_of(self.left, blocks)
        for key, value, below in self.rows:
            same = next((n for n, (a, b) in enumerate(zip(before, key)) if a != b), min(len(before), len(key))) if self.shares else 0
            entries += b"\xa4" + text(b"k") + data_of(key[same:]) + text(b"p") + head(0, same)
            entries += text(b"t") + link_of(below, blocks) + text(b"v") + link(value)
            before = key
        block = self.turned(b"\xa2" + text(b"e") + head(4, len(self.rows)) + entries + text(b"l") + left)
        blocks.append(block)
        return block


def link_of(branch: Branch | None, blocks: list[bytes]) -> bytes:
    return link(cid_of(branch.block(blocks)) if branch else None)


def branch_of(pairs: list[tuple[bytes, bytes]], at: int) -> Branch | None:
    """The branch of these pairs, of which no key is of a higher layer than this one."""
    if not pairs:
        return None
    here = [i for i, (key, _) in enumerate(pairs) if layer(key) == at]
    ends = [-1, *here, len(pairs)]
    below = [branch_of(pairs[a + 1 : b], at - 1) for a, b in zip(ends, ends[1:])]
    return Branch(below[0], [(*pairs[i], it) for i, it in zip(here, below[1:])])


class Draft:
    """A repository: its commit's fields, its tree, and its records."""

    def __init__(self, pick: Random) -> None:
        self.did, self.rev = b"did:plc:" + made_rev(pick.getrandbits(60)), made_rev(pick.getrandbits(60))
        self.sig: bytes | None = pick.randbytes(64)
        self.prev: bytes | None = None
        self.root: bytes | None = None
        self.turned: Spelled = bytes
        keys = made_keys(pick, pick.choice([1, 3, 8, 30]))[: pick.choice([0, 1, 2, None, None, None])]
        records = [made_map(pick) for _ in keys]
        self.records = {cid_of(it): it for it in records}
        self.plant(dict(zip(keys, (cid_of(it) for it in records))))

    def plant(self, leaves: dict[bytes, bytes]) -> None:
        """Has the tree of these pairs."""
        self.tree = branch_of(sorted(leaves.items()), max(map(layer, leaves), default=0)) or Branch()

    def leaves(self) -> dict[bytes, bytes]:
        return {key: value for it in self.tree.all() for key, value, _ in it.rows}

    def sections(self) -> list[tuple[bytes, bytes]]:
        nodes: list[bytes] = []
        root = cid_of(self.tree.block(nodes))
        commit = self.turned(commit_bytes(self.did, self.rev, self.sig, self.root or root, self.prev))
        blocks = dict.fromkeys([commit, *reversed(nodes), *self.records.values()])
        return [(cid_of(it), it) for it in blocks]


# Ways to spoil a repository whose file has true CIDs all the same.


def bad_did(pick: Random, it: Draft) -> None:
    it.did = pick.choice([b"", b"did:", b"did:web", b"did:web:", b"did::x", b"did:Web:x", b"did:web:x:", b"did:web:x%", b"web:x:y", b"did:web:a b",
                          b"did:web:\xc3\xa9", b"did:web:\xff", b"did:web:" + 2041 * b"a", b"did:w3b:x", it.did + b"/"])


def bad_rev(pick: Random, it: Draft) -> None:
    it.rev = pick.choice([b"", it.rev[1:], it.rev + b"2", b"z" + it.rev[1:], it.rev[:-1] + b"1", it.rev.upper(), b"k" + it.rev[1:], 13 * b"\xff"])


def other_commit(pick: Random, it: Draft) -> None:
    """Another commit, of which some are one: names of fields, a version, a signature of any length, the commit before."""
    turn = pick.randrange(8)
    if turn == 0:
        it.sig = pick.randbytes(pick.choice([0, 23, 24, 255, 256, 70_000]))
    elif turn == 1:
        it.prev = cid_of(b"")
    elif turn == 2:
        it.did = pick.choice([b"did:web:" + 2040 * b"a", b"did:a:.", b"did:web:x%3A8080", b"did:web:a:b"])
    elif turn == 3:
        it.prev = pick.choice([b"", b"\x01\x55\x12\x20" + bytes(32), cid_of(b"") + b"\0", b"\x12\x20" + bytes(32)])
    else:
        names = [b"\x63did", b"\x63rev", b"\x63sig", b"\x64data", b"\x64prev", b"\x67version\x03", b"\x6dand 13 letters", b"\xa6", b"\x58\x40"]
        old, new = pick.choice(names), pick.choice([*names, b"", b"\x67version\x02", b"\x63SIG", b"\xb8\x06", b"\xbf", b"\x59\x00\x40"])
        it.turned = lambda block: block.replace(old, new, 1)


def no_signature(pick: Random, it: Draft) -> None:
    it.sig = None


def flipped_commit(pick: Random, it: Draft) -> None:
    it.turned = turn_of(pick)


def turn_of(pick: Random) -> Spelled:
    """Turns a bit of a block, cuts it, or adds a byte."""
    at, bit, kind = pick.random(), 1 << pick.randrange(8), pick.randrange(6)

    def turned(block: bytes) -> bytes:
        place = int(at * len(block))
        if kind == 0:
            return block[:place]
        if kind == 1:
            return block + bytes([bit])
        return block[:place] + bytes([block[place] ^ bit]) + block[place + 1 :]

    return turned


def other_root(pick: Random, it: Draft) -> None:
    """The commit names another root: a record, a block that isn't there, or a node that is no root."""
    nodes: list[bytes] = []
    it.tree.block(nodes)
    it.root = pick.choice([cid_of(b""), *it.records, *map(cid_of, nodes[:-1])])


def bad_key(pick: Random, it: Draft) -> None:
    key = pick.choice([b"a", b"a/", b"/b", b"a/b/c", b"a/.", b"a/..", b"a_b/c", b"a/\xc3\xa9", b"a/" + 513 * b"x", 318 * b"c" + b"/x", b"\0", 1024 * b"\xff"])
    record = made_map(pick)
    it.records[cid_of(record)] = record
    it.plant({**it.leaves(), key: cid_of(record)})


def no_key(pick: Random, it: Draft) -> None:
    """A key of no byte or too many."""
    it.plant({**it.leaves(), pick.choice([b"", 1025 * b"k"]): pick.choice([*it.records, cid_of(b"")])})


def other_value(pick: Random, it: Draft) -> None:
    """A key names another record, a node in place of a record, or a block that isn't there."""
    leaves, nodes = it.leaves(), list[bytes]()
    it.tree.block(nodes)
    leaves[pick.choice([*leaves, b"a/other"])] = pick.choice([cid_of(pick.randbytes(3)), *it.records, *map(cid_of, nodes)])
    keep = {cid_of(node): node for node in nodes}
    it.records |= {value: keep[value] for value in leaves.values() if value in keep}
    it.plant(leaves)


def no_record(pick: Random, it: Draft) -> None:
    """The record of a key isn't in the file."""
    if not it.tree.rows:
        it.plant({b"a/gone": cid_of(b"")})
    it.records.pop(pick.choice([*it.leaves().values()]), None)


# A record with each fault of DAG-CBOR, as the value of a field.
FAULTY = {
    "Truncated": [b"", b"\x18", b"\x62a", b"\x82\x01", b"\xa1\x61a", b"\xd8\x2a", b"\x44abc", b"\x1b\0\0"],
    "LongHead": [b"\x18\x17", b"\x19\0\xff", b"\x78\x01a", b"\x98\x01\x01", b"\x1c", b"\x3b" + bytes(8), b"\xd9\0\x2a" + link(cid_of(b""))[2:]],
    "Indefinite": [b"\x1f", b"\x9f\xff", b"\xbf\xff", b"\x5f\xff", b"\x7f\xff", b"\xff"],
    "BadTag": [b"\xc0\x01", b"\xd8\x2b\x41a", b"\xd8\x29" + link(cid_of(b""))[2:]],
    "BadLink": [b"\xd8\x2a\x01", b"\xd8\x2a\x41a", b"\xd8\x2a\x58\x25\x01" + cid_of(b""), b"\xd8\x2a\x58\x24" + cid_of(b""), b"\xd8\x2a\x45\0\x02\x71\0\0"],
    "KeyNotText": [b"\xa1\x01\x01", b"\xa1\x41a\x01", b"\xa1\xf6\x01"],
    "KeyOrder": [b"\xa2\x61b\x01\x61a\x01", b"\xa2\x61a\x01\x61a\x01", b"\xa2\x62aa\x01\x61b\x01"],
    "BadUtf8": [b"\x61\xff", b"\x62\xc3\x28", b"\x63\xed\xa0\x80", b"\xa1\x61\x80\x01", b"\x62\xc0\x80", b"\x64\xf5\x80\x80\x80"],
    "Float": [b"\xf9\x7e\0", b"\xfa" + bytes(4), b"\xfb" + bytes(8)],
    "Simple": [b"\xf7", b"\xe0", b"\xf8\x20", b"\xf3", b"\xf8\xff"],
    "IntegerRange": [b"\x1b\x80" + bytes(7), b"\x3b\xff" + bytes(7)],
    "TooDeep": [64 * b"\x81" + b"\x01", 63 * b"\x81" + b"\xa0", 70 * b"\xa1\x61a"],
}


def with_record(pick: Random, it: Draft, record: bytes) -> None:
    """A key has this record, and maybe another with the same fault stands behind it."""
    leaves = it.leaves()
    it.records[cid_of(record)] = record
    it.plant({**leaves, **dict.fromkeys(pick.choices([*leaves, b"a/faulty"], k=pick.randrange(1, 3)), cid_of(record))})


def field(value: bytes) -> bytes:
    return b"\xa1\x61f" + value


def faulty_record(name: str) -> Callable[[Random, Draft], None]:
    return lambda pick, it: with_record(pick, it, field(pick.choice(FAULTY[name])))


def trailing(pick: Random, it: Draft) -> None:
    with_record(pick, it, made_map(pick) + pick.choice([b"\0", b"\xa0", b"\xff"]))


def no_map(pick: Random, it: Draft) -> None:
    with_record(pick, it, pick.choice([b"\x80", b"\x01", b"\x61a", b"\xf6", b"\x81\xa0", b"\x41a", link(cid_of(b""))]))


def large(pick: Random, it: Draft) -> None:
    """A record of the most bytes that one may have, or of one byte that lacks behind them."""
    size = 1_048_576 - 8 + pick.randrange(2)
    with_record(pick, it, field(b"\x5a" + size.to_bytes(4, "big") + bytes(1_048_576 - 8)))


def too_large(pick: Random, it: Draft) -> None:
    """A record of a byte too many, which may be none by another fault too."""
    size = 1_048_576 - 7
    with_record(pick, it, pick.choice([field(b"\x5a" + size.to_bytes(4, "big")), 8 * b"\xff"]) + bytes(size))


def flipped_record(pick: Random, it: Draft) -> None:
    with_record(pick, it, turn_of(pick)(made_map(pick) or b"\xa0"))


# Ways to spoil the tree.


def flipped_node(pick: Random, it: Draft) -> None:
    pick.choice(it.tree.all()).turned = turn_of(pick)


def respelled_node(pick: Random, it: Draft) -> None:
    """A node that is spelled otherwise: with long heads, other fields, keys whole, or bytes behind it."""
    node = pick.choice(it.tree.all())
    node.shares = pick.random() < 0.7
    old, new = pick.choice([(b"\x61e", b"\x78\x01e"), (b"\x61l\xf6", b""), (b"\x61l\xf6", b"\x61l\xf6\xf6"), (b"\x61p\0", b"\x61p\x18\0"), (b"\x61p", b"\x61q"),
                            (b"\x61t\xf6", b"\x61t\xf7"), (b"\xa4\x61k", b"\xa3\x61k"), (b"\x61v\xd8\x2a", b"\x61v\xd8\x2b"), (b"\x61p\0", b"\x61p\x01"), (b"\xa2", b"\xa3")])
    node.turned = lambda block: block.replace(old, new, 1)


def moved_rows(pick: Random, it: Draft) -> None:
    """Rows of a node are exchanged, doubled, dropped, or stand behind each other's branch."""
    rows = pick.choice(it.tree.all()).rows
    if not rows:
        return
    a, b = pick.randrange(len(rows)), pick.randrange(len(rows))
    turn = pick.randrange(4)
    if turn == 0:
        rows[a], rows[b] = rows[b], rows[a]
    elif turn == 1:
        rows.insert(b, rows[a])
    elif turn == 2:
        del rows[a]
    else:
        rows[a], rows[b] = (*rows[a][:2], rows[b][2]), (*rows[b][:2], rows[a][2])


def other_letter(pick: Random, it: Draft) -> None:
    """A key has another letter, so that it may stand in the wrong layer or place."""
    rows = pick.choice(it.tree.all()).rows
    at = pick.randrange(len(rows) + 1)
    if at < len(rows) and rows[at][0]:
        key = bytearray(rows[at][0])
        key[pick.randrange(len(key))] = pick.choice(b"abz~/")
        rows[at] = (bytes(key), *rows[at][1:])


def one_node(pick: Random, it: Draft) -> None:
    """All keys in one node, or all but those of one layer in the nodes of others."""
    it.tree = Branch(None, [(key, value, None) for key, value in sorted(it.leaves().items())])


def bare_nodes(pick: Random, it: Draft) -> None:
    """Nodes without keys are put between a link and its node, or at its end, or above the root."""
    bare = Branch() if pick.randrange(2) else Branch(Branch())
    node = pick.choice(it.tree.all())
    turn = pick.randrange(4)
    if turn == 0:
        it.tree = Branch(it.tree)
    elif turn == 1:
        node.left = Branch(node.left)
    elif turn == 2 and node.rows:
        at = pick.randrange(len(node.rows))
        node.rows[at] = (*node.rows[at][:2], Branch(node.rows[at][2]) if pick.randrange(2) else bare)
    else:
        node.left = node.left or bare


def other_links(pick: Random, it: Draft) -> None:
    """A link is left out, or leads to another node of the tree."""
    nodes = it.tree.all()
    node, other = pick.choice([it for it in nodes if it.below()] or nodes), pick.choice([*nodes, None])
    if other and node in other.all():
        other = None
    if node.rows and pick.randrange(2):
        at = pick.randrange(len(node.rows))
        node.rows[at] = (*node.rows[at][:2], other)
    else:
        node.left = other


def long_chain(pick: Random, it: Draft) -> None:
    """Many links to one chain of nodes without keys."""
    chain = Branch()
    for _ in range(pick.choice([3, 20, 127, 200])):
        chain = Branch(chain)
    it.tree = Branch(None, [(key, value, chain) for key, value in sorted(it.leaves().items())])


# Ways to spoil the sections.

Sections = list[tuple[bytes, bytes]]


def in_any_order(pick: Random, it: Sections) -> None:
    pick.shuffle(it)


def doubled(pick: Random, it: Sections) -> None:
    for _ in range(pick.randrange(1, 4)):
        it.insert(pick.randrange(len(it) + 1), pick.choice(it))


def foreign(pick: Random, it: Sections) -> None:
    block = pick.choice([b"", b"\xa0", pick.randbytes(90), commit_bytes(b"did:web:x", 13 * b"2", b"", cid_of(b""), None)])
    it.insert(pick.randrange(len(it) + 1), (cid_of(block), block))


def dropped(pick: Random, it: Sections) -> None:
    del it[pick.randrange(len(it))]


def no_commit(pick: Random, it: Sections) -> None:
    del it[: pick.choice([1, 1, len(it)])]


def no_records(pick: Random, it: Sections) -> None:
    """The last sections are left out, which are of records and nodes."""
    del it[max(1, len(it) - pick.randrange(1, 4)) :]


def misnamed(pick: Random, it: Sections) -> None:
    """A section has another block, or another CID."""
    at, other = pick.randrange(len(it)), pick.randrange(len(it))
    cid, block = it[at]
    it[at] = pick.choice([(cid, it[other][1]), (it[other][0], block), (cid[:-1] + bytes([cid[-1] ^ 1]), block), (cid, block + b"\0"), (cid, b"")])


def misnamed_beside(pick: Random, it: Sections) -> None:
    """A section more, with the CID of another block."""
    it.insert(pick.randrange(len(it) + 1), (pick.choice(it)[0], pick.randbytes(5)))


def other_cid(pick: Random, it: Sections) -> None:
    """A section's CID has another version, codec, hash or length."""
    at = pick.randrange(len(it))
    cid, block = it[at]
    kinds = [b"\x01\x55\x12\x20" + cid[4:], b"\x12\x20" + cid[4:], b"\x01\x71\x13\x20" + cid[4:], b"\x02" + cid[1:], b"\x01\x71\x12\x21" + cid[4:], cid[:20], b""]
    it.insert(at, (pick.choice(kinds), block if pick.randrange(2) else b""))


# Ways to spoil the pieces.


def other_header(pick: Random, it: list[bytes]) -> None:
    head_at = it[0]
    kinds = [head_at[:-1] + b"\x02", head_at[:1] + head_at[1:].replace(b"\x81", b"\x80"), b"\x3b" + head_at[1:], b"\x80" + head_at, head_at[1:], b"", b"\xba\0" + head_at[1:],
             head_at.replace(b"\x65roots", b"\x65Roots"), head_at.replace(b"\x01\x71", b"\x01\x55"), head_at.replace(b"\xa2", b"\xa1"), head_at[: pick.randrange(len(head_at))]]
    it[0] = pick.choice(kinds)


def other_root_of_file(pick: Random, it: list[bytes]) -> None:
    """The header names another block of the file, or none of it."""
    it[0] = car_of(pick.choice([cid_of(b""), *(piece[2:38] for piece in it[1:] if piece[2:6] == cid_of(b"")[:4])]), [])


def length_of(piece: bytes) -> tuple[int, bytes]:
    """A section's length as it stands, and what is behind it."""
    at = next((n for n, byte in enumerate(piece) if byte < 128), 0) + 1
    return len(piece) - at, piece[at:]


def long_length(pick: Random, it: list[bytes]) -> None:
    """A section's length has more bytes than it need have, or more than nine."""
    at = pick.randrange(1, len(it))
    length, body = length_of(it[at])
    more = varint(length)[:-1] + bytes([varint(length)[-1] | 128])
    it[at] = pick.choice([more + b"\0", more + 5 * b"\x80" + b"\0", b"\x80\0", 9 * b"\xff" + b"\x01", 10 * b"\x80"]) + body


def other_length(pick: Random, it: list[bytes]) -> None:
    """A section's length is another number."""
    at = pick.randrange(1, len(it))
    length, body = length_of(it[at])
    it[at] = varint(pick.choice([length + 1, max(length - 1, 0), 2**62, 2**63 - 1, 0, 35, 36])) + body


def ends_within(pick: Random, it: list[bytes]) -> None:
    """The file ends within a length, a CID or a block, or before one."""
    at = pick.randrange(1, len(it))
    it[at:] = [it[at][: pick.choice([0, 1, 20, 36, len(it[at]) - 1, pick.randrange(len(it[at]) + 1)])]]


def cut(pick: Random, it: list[bytes]) -> None:
    it[-1] = it[-1][:-1]


def more_behind(pick: Random, it: list[bytes]) -> None:
    it.append(pick.choice([b"\0", b"\x80", b"\x25\x01\x71\x12\x20", b"\x23" + bytes(35), b"\x24" + bytes(36), pick.randbytes(5), it[0]]))


def flipped(pick: Random, it: list[bytes]) -> None:
    for _ in range(pick.randrange(1, 4)):
        at = pick.randrange(len(it))
        if it[at]:
            it[at] = turn_of(pick)(it[at])


def nothing(pick: Random, it: list[bytes]) -> None:
    del it[pick.randrange(2) :]


def whole(pick: Random, it: Draft) -> None:
    pass


OF_DRAFTS: list[Callable[[Random, Draft], None]] = [
    whole, bad_did, bad_rev, other_commit, no_signature, flipped_commit, other_root, bad_key, no_key, other_value, no_record,
    *map(faulty_record, FAULTY), trailing, no_map, large, too_large, flipped_record,
    flipped_node, respelled_node, moved_rows, other_letter, one_node, bare_nodes, other_links, long_chain,
]
OF_SECTIONS: list[Callable[[Random, Sections], None]] = [in_any_order, doubled, foreign, dropped, no_commit, no_records, misnamed, misnamed_beside, other_cid]
OF_PIECES: list[Callable[[Random, list[bytes]], None]] = [other_header, other_root_of_file, long_length, other_length, ends_within, cut, more_behind, flipped, nothing]
KINDS = [*OF_DRAFTS, *OF_SECTIONS, *OF_PIECES]


def made_export(pick: Random, number: int) -> bytes:
    """A file: one spoilt in each way for the first numbers, and then in up to three ways that are picked."""
    kinds = [KINDS[number]] if number < len(KINDS) else pick.choices(KINDS, k=pick.choice([0, 1, 1, 1, 2, 3]))
    draft = Draft(pick)
    for spoil in (it for it in OF_DRAFTS if it in kinds):
        spoil(pick, draft)
    sections = draft.sections()
    root = sections[0][0]
    for turn in (it for it in OF_SECTIONS if it in kinds and sections):
        turn(pick, sections)
    pieces = [car_of(root, []), *(varint(len(cid) + len(block)) + cid + block for cid, block in sections)]
    for change in (it for it in OF_PIECES if it in kinds and len(pieces) > 1):
        change(pick, pieces)
    return b"".join(pieces)


def usual_export(pick: Random, count: int) -> bytes:
    """The export of a repository of so many usual records."""
    records = {cid_of(it): it for it in (usual_record(pick) for _ in range(count))}
    tree = Tree(dict(zip(usual_keys(pick, count), records)), records)
    commit = commit_bytes(b"did:plc:usual", 13 * b"3", pick.randbytes(64), tree.root, None)
    return car_of(cid_of(commit), [commit, *tree.order])


# Files that are made to be slow: none of them is the export of a repository.


def row(key: bytes, same: int, below: bytes | None) -> bytes:
    """The entry of a key that has so many bytes in common with the one before, over this node."""
    return b"\xa4" + text(b"k") + data_of(key[same:]) + text(b"p") + head(0, same) + text(b"t") + link(below) + text(b"v") + link(cid_of(b""))


def node_of(rows: list[bytes], left: bytes | None) -> bytes:
    return b"\xa2" + text(b"e") + head(4, len(rows)) + b"".join(rows) + text(b"l") + link(left)


def many_rows(count: int, below: bytes | None, before: bytes) -> list[bytes]:
    """So many entries over one node, whose keys begin with these bytes."""
    keys = [before + b"%07d" % at for at in range(count)]
    return [row(key, len(before) + next(n for n in range(7) if old[-7:][n] != key[-7:][n]) if old else 0, below) for old, key in zip([b"", *keys], keys)]


def chain_of(length: int) -> list[bytes]:
    """So many nodes without keys, each but the first over the one before."""
    nodes = [node_of([], None)]
    while len(nodes) < length:
        nodes.append(node_of([], cid_of(nodes[-1])))
    return nodes


def links_to_a_chain(count: int) -> list[bytes]:
    """So many links to one chain of 127 nodes without keys, in one node."""
    chain = chain_of(127)
    return [node_of(many_rows(count, cid_of(chain[-1]), b"a/"), None), *chain]


def links_and_small_blocks(count: int) -> list[bytes]:
    """The same beside so many blocks of no byte, since a check makes as many reads as a file has sections."""
    return [*links_to_a_chain(count), *count * [b""]]


def links_to_a_long_node(count: int) -> list[bytes]:
    """So many links to one long node, of a tenth as many keys, which come before all others."""
    long = node_of(many_rows(count // 10, None, b"a/"), None)
    return [node_of(many_rows(count, cid_of(long), b"b/"), cid_of(long)), long]


def long_keys(count: int) -> list[bytes]:
    """So many keys of 1,024 bytes, of which a node spells the last alone, in one node."""
    return [node_of(many_rows(count, None, 1017 * b"k"), None)]


SLOW: list[Callable[[int], list[bytes]]] = [links_to_a_chain, links_and_small_blocks, links_to_a_long_node, long_keys]


def slow_export(blocks: list[bytes]) -> bytes:
    """The file of a commit over the first of these blocks, with a section for each, also where one stands there several times."""
    commit = commit_bytes(b"did:plc:slow", 13 * b"3", bytes(64), cid_of(blocks[0]), None)
    file = car_of(cid_of(commit), [commit])
    return file + b"".join(varint(36 + len(it)) + cid_of(it) + it for it in blocks)
