"""The table of calls and answers that the tests of all bindings read: bindings/cases.json."""
import json
import re
import unittest

import tizulgech as t

from support import read

TABLE = json.loads(read("bindings/cases.json"))
ASIDE = {"call", "answer", "fault", "place", "cid", "path"}


def whole(text):
    """Text of the table, in which x*n stands for n times x."""
    found = re.fullmatch(r"(.+)\*(\d+)", text)
    return found[1] * int(found[2]) if found else text


def data(text):
    return b"".join(bytes.fromhex(whole(it)) for it in text.split(" "))


def cid(text):
    return None if text is None else t.Cid.parse(text)


def text(it):
    return None if it is None else str(it)


def told(changes):
    return [(key, cid(before), cid(after)) for key, before, after in changes]


def pairs(found):
    return [[key.decode(), str(it)] for key, it in found]


def wanted(changes):
    return {key: cid(value) for key, value in changes.items()}


def write(kind, key, record=""):
    return {"put": t.Put, "create": t.Create, "update": t.Update}[kind](key, data(record)) if kind != "delete" else t.Delete(key)


def host(nodes):
    return {t.Cid.parse(it): data(node) for it, node in nodes.items()}.get


def tree_root(pairs):
    root, nodes = t.tree_root([(key, cid(value)) for key, value in pairs])
    return [str(root), nodes]


def tree_path(nodes, root, key):
    path, value = t.tree_path(host(nodes), cid(root), key)
    return {"path": [it.hex() for it in path], "value": text(value)}


def tree_apply(nodes, root, changes):
    edit = t.tree_apply(host(nodes), cid(root), wanted(changes))
    previous = [[key, text(value)] for key, value in zip(sorted(changes), edit.previous)]
    return {"root": str(edit.root), "add": sorted([str(it), node.hex()] for it, node in edit.add), "drop": sorted(map(str, edit.drop)), "previous": previous}


def hexed(block):
    """Bytes as the table has them: a long run of zeros is one word."""
    return " ".join(f"00*{len(it)}" if len(it) > 999 and not any(it) else it.hex() for it in re.split(rb"(\0{1000,})", block) if it)


def commit(it):
    return {"did": it.did, "rev": it.rev, "root": str(it.root), "prev": text(it.prev), "sig": it.sig.hex(), "unsigned": it.unsigned.hex()}


def operations(found):
    return [[key.decode(), text(before), text(after)] for key, before, after in found]


def check_commit(previous, message):
    it = t.check_commit(cid(previous), data(message))
    blocks = [[str(name), hexed(block)] for name, block in it.blocks]
    told = {"seq": it.seq, "cid": str(it.cid), "since": it.since, "time": it.time, "operations": operations(it.operations), "blocks": blocks}
    return {"commit": commit(it.commit), **told}


def empty_account(did, rev, sig):
    root = t.Cid.of(t.EMPTY_NODE)
    signed = t.signed_commit(did, rev, root, data(sig))
    top = t.Cid.of(signed)
    return (t.file_head(top) + t.file_section(top, signed) + t.file_section(root, t.EMPTY_NODE)).hex()
def node_entries(node):
    entries = t.node_entries(data(node))
    return {"left": text(entries.left), "pairs": [[key.decode(), str(value), text(link)] for key, value, link in entries.pairs]}


def tree_prove_change(nodes, root, changes):
    proof = t.tree_prove_change(host(nodes), cid(root), wanted(changes))
    t.verify_change(cid(root), proof.after, proof.nodes, proof.changes)
    return {"after": str(proof.after), "changes": [[key.decode(), text(before), text(after)] for key, before, after in proof.changes], "shown": True}


def tree_difference(nodes, before, after):
    found = t.tree_difference(host(nodes), cid(before), cid(after))
    changes = [[key.decode(), text(old), text(new)] for key, old, new in found.changes]
    return {"changes": changes, "add": sorted([str(it), node.hex()] for it, node in found.add), "drop": sorted(map(str, found.drop))}


def check_car(file):
    found = t.check_car(data(file))
    return {"commit": str(found.commit), "root": str(found.root), "count": found.count, "did": found.did, "rev": found.rev}


def open_car(limit, file):
    with t.Repository.open_car(limit, data(file)) as repository:
        return {"root": str(repository.root), "number": repository.number, "pairs": pairs(repository)}


CALLS = {
    "signed_commit": lambda did, rev, root, sig: t.signed_commit(did, rev, cid(root), data(sig)).hex(),
    "next_tid": t.next_tid,
    "read_commit": lambda bytes: commit(t.read_commit(data(bytes))),
    "file_head": lambda root: t.file_head(cid(root)).hex(),
    "file_section": lambda of, block: t.file_section(cid(of), data(block)).hex(),
    "empty_account": empty_account,
    "check_commit": check_commit,
    "record_fault": lambda bytes: t.check_record(data(bytes)),
    "write_fault": lambda write, there: t.check_write(globals()["write"](*write), there),
    "layer": lambda key: t.layer(key),
    "is_key": lambda key: t.is_key(whole(key)),
    "is_repository_key": t.is_repository_key,
    "is_did": t.is_did,
    "is_tid": t.is_tid,
    "cid": lambda block: str(t.Cid.of(data(block))),
    "cids": lambda blocks: [str(it) for it in t.Cid.of_each([data(it) for it in blocks])],
    "cid_text": lambda bytes: str(t.Cid(data(bytes))),
    "cid_from_text": lambda text: t.Cid.parse(text).bytes.hex(),
    "stamp_fault": t.check_stamp,
    "commit_bytes": lambda did, rev, root: t.commit_bytes(did, rev, cid(root)).hex(),
    "tree_root": tree_root,
    "listing_car": lambda did, rev, records: t.listing_car(did, rev, [(key, data(record)) for key, record in records]).hex(),
    "links": lambda node: [[is_node, str(it)] for is_node, it in t.links(data(node))],
    "verify": lambda root, proof, key: text(t.verify(cid(root), [data(it) for it in proof], key)),
    "verify_change": lambda before, after, nodes, changes: t.verify_change(cid(before), cid(after), [data(it) for it in nodes], told(changes)),
    "verify_inversion": lambda before, after, nodes, changes: t.verify_inversion(cid(before), cid(after), [data(it) for it in nodes], told(changes)),
    "tree_get": lambda nodes, root, key: text(t.tree_get(host(nodes), cid(root), key)),
    "tree_path": tree_path,
    "tree_apply": tree_apply,
    "node_entries": node_entries,
    "tree_list": lambda nodes, root, start, most: pairs(t.tree_list(host(nodes), cid(root), start, most)),
    "tree_prove_change": tree_prove_change,
    "tree_difference": tree_difference,
    "record_json": lambda record: t.record_json(data(record)),
    "json_record": lambda text: t.json_record(text).hex(),
    "link_text": lambda bytes: t.link_text(data(bytes)),
    "link_from_text": lambda text: t.link_from_text(text).hex(),
    "check_car": check_car,
    "open_car": open_car,
}


def apply(repository, did, rev, writes):
    applied = repository.apply(did, rev, [write(*it) for it in writes])
    return {"root": str(applied.root), "previous": str(applied.previous), "commit": str(applied.commit)}


def preview(repository, did, rev, writes):
    it = repository.preview(did, rev, [write(*it) for it in writes])
    return {"previous": str(it.previous), "root": str(it.root), "unsigned": it.unsigned.hex(), "changes": operations(it.changes)}


def apply_signed(repository, did, rev, writes, previous, sig, seq, time, since):
    given = {"previous": cid(previous), "sig": data(sig), "seq": seq, "time": time, "since": since}
    return hexed(repository.apply_signed(did, rev, [write(*it) for it in writes], **given))


def get(repository, key):
    found = repository.get(key)
    return None if found is None else found.hex()


def prove_change(repository, changes):
    proof = repository.prove_change(wanted(changes))
    rows = [[key.decode(), text(before), text(after)] for key, before, after in proof.changes]
    return {"after": str(proof.after), "changes": rows, "nodes": [it.hex() for it in proof.nodes]}


def car(repository):
    found = repository.car()
    assert b"".join(repository.car_parts(100)) == b"".join(repository.car_sections()) == found
    return found.hex()


STEPS = {
    "apply": apply,
    "preview": preview,
    "apply_signed": apply_signed,
    "rev": lambda repository: repository.rev,
    "close": lambda repository: repository.close(),
    "root": lambda repository: str(repository.root),
    "commit": lambda repository: text(repository.commit),
    "number": lambda repository: repository.number,
    "get": get,
    "list": lambda repository, start, most: pairs(repository.list(start, most)),
    "pairs": lambda repository, start: pairs(repository.pairs(start)),
    "car": car,
    "car_length": lambda repository: repository.car_length(),
    "prove": lambda repository, key: [it.hex() for it in repository.prove(key)],
    "prove_change": prove_change,
    "prove_inversion": lambda repository, changes: [it.hex() for it in repository.prove_inversion(told(changes))],
}


class Cases(unittest.TestCase):
    def see(self, case, call):
        """That a call answers what the case says, or is refused as it says."""
        given = {name: it for name, it in case.items() if name not in ASIDE}
        with self.subTest(case=str(case)[:200]):
            try:
                answer = call(**given)
            except t.Fault as fault:
                self.assertEqual((fault.name, fault.number), (case.get("fault"), TABLE["faults"][fault.name]))
                for name in ("place", "cid", "path"):
                    if name in case:
                        self.assertEqual(str(getattr(fault, name)), str(case[name]))
            else:
                self.assertNotIn("fault", case)
                self.assertEqual(answer, case["answer"])

    def test_calls(self):
        for case in TABLE["calls"]:
            self.see(case, CALLS[case["call"]])
        self.assertEqual({case["call"] for case in TABLE["calls"]}, set(CALLS))

    def test_repositories(self):
        seen = set()
        for it in TABLE["repositories"]:
            if "fault" in it:
                self.see(it, lambda name, limit: t.Repository(limit))
                continue
            with t.Repository(it["limit"]) as repository:
                for step in it["steps"]:
                    seen.add(step["call"])
                    self.see(step, lambda **given: STEPS[step["call"]](repository, **given))
        self.assertEqual(seen, set(STEPS))

    def test_faults(self):
        named = {(name, number) for names in (t.FAULTS, t.FAULTS_OF_CIDS, t.FAULTS_OF_TREES) for number, (name, _) in names.items()}
        self.assertEqual(named, set(TABLE["faults"].items()))


if __name__ == "__main__":
    unittest.main()
