"""Made input for the commands of msthost, faulty lines among it."""

from random import Random

from lib.model import cid_of, data_of, head, link, text, text_of

LETTERS = "234567abcdefghijklmnopqrstuvwxyz"


def made_rev(number: int) -> bytes:
    return "".join(LETTERS[number >> (5 * at) & 31] for at in reversed(range(13))).encode()


def made_value(pick: Random, depth: int) -> bytes:
    kind = pick.randrange(9 if depth < 4 else 5)
    if kind == 0:
        return head(pick.randrange(2), pick.choice([0, 23, 24, 255, 256, 70000, 2**40, 2**63 - 1]))
    if kind == 1:
        return data_of(pick.randbytes(pick.randrange(30)))
    if kind == 2:
        return text("".join(pick.choice("ab\u00e9\u4e16\U0001f600") for _ in range(pick.randrange(12))).encode())
    if kind == 3:
        return pick.choice([b"\xf4", b"\xf5", b"\xf6"])
    if kind == 4:
        return link(cid_of(pick.randbytes(4)))
    if kind in (5, 6):
        items = [made_value(pick, depth + 1) for _ in range(pick.randrange(4))]
        return head(4, len(items)) + b"".join(items)
    return made_map(pick, depth)


def made_map(pick: Random, depth: int = 1) -> bytes:
    names = sorted({"".join(pick.choice("abz$") for _ in range(pick.randrange(4))) for _ in range(pick.randrange(4))},
                   key=lambda it: (len(it), it))
    return head(5, len(names)) + b"".join(text(it.encode()) + made_value(pick, depth + 1) for it in names)


def made_record(pick: Random, faulty: float) -> bytes:
    record = bytearray(made_map(pick))
    if pick.random() < faulty:
        for _ in range(pick.randrange(1, 3)):
            at = pick.randrange(len(record))
            turn = pick.randrange(4)
            if turn == 0:
                record[at] ^= 1 << pick.randrange(8)
            elif turn == 1 and len(record) > 1:
                del record[at]
            elif turn == 2:
                record.insert(at, pick.randrange(256))
            elif at:
                del record[at:]
    # (a record in a line has at least one byte)
    return bytes(record) or b"\xa0"


def made_key(pick: Random, keys: list[bytes], faulty: float) -> bytes:
    if pick.random() < faulty:
        return pick.choice([b"a", b"a/", b"/b", b"a/b/c", b"a/.", b"a/..", b"a_b/c", b"a/\xc3\xa9", b"a/" + 513 * b"x", 318 * b"c" + b"/x"])
    return pick.choice(keys)


def made_keys(pick: Random, count: int) -> list[bytes]:
    names = [b"app.bsky.feed.post", b"app.bsky.feed.like", b"a", 317 * b"c"]
    return [pick.choice(names) + b"/" + made_rev(pick.getrandbits(60)) for _ in range(count)] + [b"a/b", b"a/" + 512 * b"r"]


def made_script(pick: Random) -> tuple[int, int, bytes]:
    """How many repositories and workers there are, and a script for them."""
    repos, workers = pick.randrange(1, 6), pick.randrange(1, 5)
    faulty = pick.choice([0, 0, 0.02, 0.1])
    keys, clock = made_keys(pick, pick.choice([2, 10, 60])), 1 << 55
    lines: list[bytes] = []
    for _ in range(pick.choice([0, 1, 5, 40, 120])):
        if pick.random() < 0.03:
            lines.append(b"")
            continue
        repo = pick.randrange(repos) if pick.random() > faulty else repos + pick.randrange(3)
        worker = repo % workers
        if pick.random() < 0.2:
            lines.append(b"%d %d get %s" % (worker, repo, made_key(pick, keys, faulty)))
            continue
        clock += pick.randrange(1, 9)
        rev = made_rev(clock if pick.random() > faulty else clock - pick.randrange(12))
        rev = rev if pick.random() > faulty else pick.choice([b"get", rev[1:], b"z" + rev[1:], rev[:-1] + b"1", rev.upper()])
        writes = []
        for _ in range(pick.choice([1, 1, 1, 2, 3, 8])):
            kind, key = pick.choice([b"put", b"put", b"put", b"create", b"update", b"delete"]), made_key(pick, keys, faulty)
            digits = made_record(pick, faulty).hex()
            record = (digits.upper() if pick.random() < 0.1 else digits).encode()
            writes.append(b"delete " + key if kind == b"delete" else b"%s %s %s" % (kind, key, record))
        lines.append(b"%d %d %s %s" % (worker, repo, rev, b" ; ".join(writes)))
    if lines and pick.random() < 0.15:
        at = pick.randrange(len(lines))
        lines[at] = pick.choice([b"x", b"0 0 get", lines[at] + b" ", b"0  0 get a/b", b"%d 0 get a/b" % workers, b"0 4294967296 get a/b",
                                 b"0 0 put a/b", b"0 0 2222222222222 put a/b a", b"0 0 2222222222222 put a/b ag", b"0 0 2222222222222 put a/b a0 ;",
                                 b"0 0 2222222222222", b"-1 0 get a/b", b"0 0 2222222222222 get a/b", b"0 0 put a/b a0 ; get a/b"])
    ends = pick.choice([b"\n", b"\r\n"])
    return repos, workers, ends.join(lines) + (ends if pick.random() < 0.8 else b"")


def made_puts(pick: Random) -> tuple[list[bytes], bytes]:
    """Some keys, and lines that put records under them."""
    faulty = pick.choice([0, 0, 0, 0.01, 0.1])
    keys = made_keys(pick, pick.choice([1, 4, 30, 200]))
    lines = [made_key(pick, keys, faulty) + b" " + made_record(pick, faulty).hex().encode() for _ in range(pick.choice([0, 1, 3, 30, 150]))]
    if lines and pick.random() < 0.1:
        lines[pick.randrange(len(lines))] = pick.choice([b"a/b", b"a/b  a0", b"a/b a0 ", b"a/b a", b"a/b zz", b""])
    return keys, b"\n".join(lines) + (b"\n" if pick.random() < 0.8 else b"")


# The collections of an account, each as often as its weight of 100.
COLLECTIONS = [*50 * ["app.bsky.feed.like"], *25 * ["app.bsky.feed.post"], *10 * ["app.bsky.feed.repost"], *13 * ["app.bsky.graph.follow"], *2 * ["app.bsky.graph.block"]]


def usual_keys(pick: Random, count: int) -> list[bytes]:
    """Keys as an account has them, with times in ascending steps."""
    return [pick.choice(COLLECTIONS).encode() + b"/" + made_rev((1 << 55) + (at << 22) + pick.getrandbits(20)) for at in range(count)]


def usual_record(pick: Random) -> bytes:
    """A post of 288 bytes."""
    words = "".join(pick.choices(LETTERS, k=209)).encode()
    return b"\xa4" + text(b"text") + text(words) + text(b"$type") + text(b"app.bsky.feed.post") + text(b"langs") + b"\x81\x62en" + text(b"createdAt") + text(b"2023-11-14T22:13:20.000Z")


def two_listings(pick: Random, count: int, changes: int) -> bytes:
    """Two listings of so many keys with an empty line between them, which differ in so many keys: a third each come, have another
    CID, and go. With no fewer changes than keys each has another CID."""
    keys = usual_keys(pick, count if changes >= count else count + (changes + 2) // 3)
    old = {key: cid_of(key) for key in keys}
    new = dict(old)
    for at, key in enumerate(keys if changes >= count else pick.sample(keys, changes)):
        turn = 1 if changes >= count else at % 3
        if turn == 0:
            del old[key]
        elif turn == 1:
            new[key] = cid_of(new[key])
        else:
            del new[key]
    return b"\n".join(b"".join(key + b" " + text_of(it[key]).encode() + b"\n" for key in pick.sample(sorted(it), len(it))) for it in (old, new))
