"""The plain model as a program with msthost's words, for tests of what runs msthost."""

import sys

from lib import exports, messages, model

HELP = """\
Computes and checks repositories.

Usage: msthost [COMMAND]

Commands:
  tree           Prints the tree of a listing
  prove-change   Proves a change
  explain        Says what a fault means
  help           Shows this help, as --help does

Options:
  -h, --help     Print help
  -V, --version  Print version
"""
OF_COMMAND = """\
Prints what {name} prints.

A second paragraph - with a hyphen.

Usage: msthost {name} [OPTIONS]

Options:
      --bits <BITS>
          Zero bits a layer [default: 2]

  -h, --help
          Print help (see a summary with '-h')

Example:
  msthost {name} < FILE
"""


FAULTS = {
    "BadLine": "BadLine\n  the line has not the words that a line has\n  Usual causes: a tab, two spaces, \\x00 - or 'quoted'\n",
    "BadRecord(Float)": "BadRecord(Float)\n  a number with a point\n  Usual causes: 1.5\n",
}


def verified(data: bytes, root: str, key: bytes) -> model.Ended:
    """Whether the nodes of a proof show the key's value: the model proves nothing, so it looks whether the root is there, and
    the entry of that key in the last node."""
    blocks = [bytes.fromhex(line.decode()) for line in data.split(b"\n") if line]
    if not blocks or model.text_of(model.cid_of(blocks[0])) != root:
        return model.refused("BlockMissing", None)
    values = [value for block in blocks for found, value in entries(block) if found == key]
    return model.written([f"found {model.text_of(values[0])}" if values else "absent"])


def entries(node: bytes) -> list[tuple[bytes, bytes]]:
    from lib.trees import Node

    found = Node(b"", node)
    return [*zip(found.keys, found.values)]


def answer(words: list[str], data: bytes) -> model.Ended:
    named = dict(zip(words[1::2], words[2::2]))
    did = named.get("--did", "did:web:localhost").encode()
    if words[0] == "tree":
        return model.tree(data)
    if words[0] == "car":
        return model.car(data, named.get("--rev", "2222222222222").encode(), did)
    if words[0] == "prove":
        return model.prove(data, words[1].encode())
    if words[0] in ("check", "records", "commit"):
        return exports.answer(words, data)
    if words[0] == "check-event":
        return messages.check_event(words[-1].encode(), data, "--json" in words)
    if words[0] in ("commit-event", "sync-event"):
        since = named["--since"].encode() if "--since" in named else None
        told = messages.Words(words[-2].encode(), words[-1].encode(), since, int(named["--seq"]), named["--time"].encode(), named["--sig"].encode())
        return messages.commit_event(told, data) if words[0] == "commit-event" else messages.sync_event(told, data)
    if words[0] == "verify":
        return verified(data, words[1], words[2].encode())
    return model.run(int(named["--repos"]), int(named["--workers"]), data, did)


def main() -> None:
    words = sys.argv[1:]
    if words == ["--version"]:
        print("msthost 0.0.0")
    elif words == ["--help"]:
        print(HELP, end="")
    elif words == ["explain"]:
        print("\n".join(FAULTS))
    elif words[0] == "explain" and words[1:] != ["--help"]:
        print(FAULTS[words[1]], end="")
    elif words[1:] == ["--help"]:
        print(OF_COMMAND.format(name=words[0]), end="")
    else:
        ended = answer(words, sys.stdin.buffer.read())
        sys.stdout.buffer.write(ended.out)
        sys.stderr.buffer.write(ended.err)
        sys.exit(ended.status)
