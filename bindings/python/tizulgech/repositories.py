"""Repositories in memory, each behind a handle that threads share."""
from __future__ import annotations

import threading
from dataclasses import dataclass
from typing import Any, ContextManager, Iterable, Iterator, List, Mapping, Optional, Sequence, Tuple

from . import _library
from ._answers import Reader
from ._arguments import Bytes, Text, bytes_of, number_of, text_of
from .changes import ChangeProof, Key, Told, changes_of, ordered, proof_of, told_of
from .cids import Cid, cid_of
from .faults import Fault
from .messages import Preview, preview_in
from .nodes import links
from .writes import Write, write_of


class Changed(RuntimeError):
    """A batch came between two parts of a repository that were read one after another, so they are of two states of it."""


@dataclass(frozen=True)
class Applied:
    """What an accepted batch leaves: the root after it, the root before it, and the CID of its unsigned commit."""

    root: Cid
    previous: Cid
    commit: Cid


class Repository:
    """A repository in memory that takes so many writes, 1 to 1,048,576; another limit raises a `Fault`, BAD.

    It is closed at the end of a `with`, by `close`, or once nothing has it any more, on whatever thread. Any call of one that is closed raises a
    `Fault`, CLOSED. It is true while it is open.

    Any thread may call it: it has a lock, so one call at a time is under way and the others wait, `close` too. Other repositories go on
    meanwhile. A call from a handler of a signal that comes into a call of the same repository raises a RuntimeError and does nothing. In the
    forked child of a process with threads it isn't called.

    Iterating gives its pairs, each a key and its record's CID, in the order of the keys. Between two parts of that, of `pairs`, of `car_parts` and
    of `car_sections` no lock is held: they raise `Changed` where a batch came in between.
    """

    def __init__(self, limit: int) -> None:
        self._raw, self._lock = _library.Raw(), threading.RLock()
        self._told("open", limit=number_of(limit))

    @classmethod
    def open_car(cls, limit: int, file: Bytes) -> Repository:
        """One with the records of a CAR file, as com.atproto.sync.getRepo serves it: they are one batch, under the DID and the revision of the file's
        commit, and its root is the one that the commit names. Its own commit has no signature, and so another CID than the file's. A file without
        records gives one without writes.

        The faults are those of `check_car`; BAD of the limit, and WRITES_FULL where the file has more records than it."""
        opened, place = cls.__new__(cls), _library.size()
        opened._raw, opened._lock = _library.Raw(), threading.RLock()
        number = _library.call("open_car", limit=number_of(limit), file=bytes_of(file), repository=opened._raw, place=place)
        if number:
            raise Fault(number, place.value)
        return opened

    def __enter__(self) -> Repository:
        return self

    def __exit__(self, *_: object) -> None:
        self.close()

    def __del__(self) -> None:
        if hasattr(self, "_lock"):
            self.close()

    def __bool__(self) -> bool:
        with self._turn():
            return self._raw.is_open

    def close(self) -> None:
        """Lets it go, once the call that is under way has ended. Any later call raises a fault, but for another `close`."""
        with self._turn():
            _library.call("close", repository=self._raw)

    def _turn(self) -> ContextManager[Any]:
        """The lock: what a call holds."""
        if self._lock._is_owned():
            raise RuntimeError("a call of this repository is under way on this thread")
        return self._lock

    def _told(self, name: str, **given: Any) -> None:
        with self._turn():
            self._answered(name, **given)

    def _filled(self, name: str, **given: Any) -> bytes:
        with self._turn():
            return _library.filled(name, repository=self._raw, **given)

    def _answered(self, name: str, **given: Any) -> None:
        """A call of whoever has the lock."""
        number = _library.call(name, repository=self._raw, **given)
        if number:
            raise Fault(number)

    def apply(self, did: Text, rev: Text, writes: Iterable[Write]) -> Applied:
        """Accepts all writes of a batch, in order, under a stamp, or none of them.

        The first fault is raised, with the place of its write: as `check_write` and `check_stamp` say it, EMPTY_BATCH, or WRITES_FULL. REV_ORDER
        says that the revision isn't after that of the batch before: threads that share a repository agree on their order.

        All that is given is read first. Whatever is raised, no write of this batch is left for a later one; an exception from outside, as
        KeyboardInterrupt, may come once all of it is accepted, which `number` shows.
        """
        did, rev, parts = text_of(did), text_of(rev), [write_of(write) for write in writes]
        with self._turn():
            try:
                self._stage(parts)
                return self._applied(did, rev)
            except BaseException:
                _library.call("clear", repository=self._raw)
                raise

    def preview(self, did: Text, rev: Text, writes: Iterable[Write]) -> Preview:
        """What a batch would make of the repository, which stays as it is: the roots before and after, the bytes of its commit, which are signed,
        and what each key has and will have. The faults are those of `apply`."""
        given, parts = {"did": text_of(did), "rev": text_of(rev)}, [write_of(write) for write in writes]
        return preview_in(Reader(self._staged("preview", parts, 512 + 256 * len(parts), **given)))

    def apply_signed(self, did: Text, rev: Text, writes: Iterable[Write], *, previous: Cid, sig: Bytes, seq: int, time: Text, since: Optional[Text] = None) -> bytes:
        """Accepts a batch whose commit was signed over the root `previous`, as `preview` told both, and answers the message #commit that tells of
        it; or raises a fault and leaves all as it was.

        `seq` is the message's number in the stream, `time` when it is sent, as 2026-11-30T12:00:00Z, and `since` the revision of the batch before,
        if there was one. ROOT_MOVED says that another batch came since; the other faults are those of `apply`, and why no message can tell of the
        batch: BAD_SEQ, BAD_SINCE, SINCE_ORDER, BAD_TIME, TOO_MANY_OPS, MESSAGE_RECORD_SIZE or BLOCKS_SIZE. Such a batch is accepted by `apply`.
        """
        parts = [write_of(write) for write in writes]
        given = {"did": text_of(did), "rev": text_of(rev), "previous": cid_of(previous), "sig": bytes_of(sig), "seq": number_of(seq, 1 << 64)}
        first = 4096 + sum(2048 + len(record) for _, _, record in parts)
        return self._staged("apply_signed", parts, first, time=text_of(time), since=text_of(since or b""), **given)

    def _staged(self, name: str, parts: Sequence[Tuple[int, bytes, bytes]], first: int, **given: Any) -> bytes:
        """The answer of a call over writes that wait, of which none does afterwards."""
        place = _library.size()
        with self._turn():
            try:
                self._stage(parts)
                return _library.filled(name, first=first, repository=self._raw, place=place, **given)
            except Fault as fault:
                raise Fault(fault.number, place.value) from None
            finally:
                _library.call("clear", repository=self._raw)

    def _stage(self, parts: Sequence[Tuple[int, bytes, bytes]]) -> None:
        # What a second exception may have left.
        self._answered("clear")
        for kind, key, record in parts:
            self._answered("stage", kind=kind, key=key, record=record)

    def _applied(self, did: bytes, rev: bytes) -> Applied:
        place, root, previous, commit = _library.size(), _library.room(), _library.room(), _library.room()
        given = {"did": did, "rev": rev, "place": place, "root": root, "previous": previous, "commit": commit}
        number = _library.call("apply", repository=self._raw, **given)
        if number:
            raise Fault(number, place.value)
        return Applied(root=Cid(root.raw), previous=Cid(previous.raw), commit=Cid(commit.raw))

    def get(self, key: Text) -> Optional[bytes]:
        """The record of a key, or None."""
        try:
            return self._filled("get", key=text_of(key))
        except Fault as fault:
            if fault.number == 24:
                return None
            raise

    def list(self, start: Text = b"", most: int = 256) -> Sequence[Tuple[bytes, Cid]]:
        """The first keys from one on, so many at most, each with its record's CID."""
        return Reader(self._filled("list", **{"from": text_of(start)}, most=number_of(most))).pairs()

    def pairs(self, start: Text = b"") -> Iterator[Tuple[bytes, Cid]]:
        """All keys from one on, each with its record's CID, read page by page."""
        begun, after = self.number, text_of(start)
        while pairs := Reader(self._part(begun, "entries", first=24_576, **{"from": after}, most=512)).pairs():
            yield from pairs
            after = pairs[-1][0] + b"\0"

    def __iter__(self) -> Iterator[Tuple[bytes, Cid]]:
        return self.pairs()

    def _part(self, begun: int, name: str, **given: Any) -> bytes:
        """The answer of a call, where so many writes are accepted as were when its first part was read."""
        number = _library.count()
        with self._turn():
            self._answered("number", number=number)
            if number.value != begun:
                raise Changed("a batch came between two parts of the repository")
            return _library.filled(name, repository=self._raw, **given)

    @property
    def root(self) -> Cid:
        """The root of the tree."""
        root = _library.room()
        self._told("root", root=root)
        return Cid(root.raw)

    @property
    def commit(self) -> Optional[Cid]:
        """The CID of the last batch's commit, or None before the first."""
        commit = _library.room()
        try:
            self._told("commit", commit=commit)
        except Fault as fault:
            if fault.number == 24:
                return None
            raise
        return Cid(commit.raw)

    @property
    def rev(self) -> Optional[str]:
        """The revision of the last batch, or None before the first."""
        try:
            return self._filled("rev").decode()
        except Fault as fault:
            if fault.number == 24:
                return None
            raise

    @property
    def number(self) -> int:
        """How many writes are accepted."""
        number = _library.count()
        self._told("number", number=number)
        return number.value

    def car(self) -> bytes:
        """The repository as one file (CARv1)."""
        length = _library.count()
        with self._turn():
            self._answered("car_length", length=length)
            return _library.filled("car", length.value, repository=self._raw)

    def car_length(self) -> int:
        """How many bytes that file has; none of them is made."""
        length = _library.count()
        self._told("car_length", length=length)
        return length.value

    def car_parts(self, length: int = 1 << 20) -> Iterator[bytes]:
        """The same in parts of so many bytes, of which one at least. Each costs the way through all that is before it."""
        length, start, begun = max(number_of(length), 1), 0, self.number
        while part := self._part(begun, "car_part", first=length, **{"from": start}):
            yield part
            start += len(part)

    def car_sections(self) -> Iterator[bytes]:
        """The same in parts of which each is made once: the header, and a section for each block."""
        begun, left = self._begun()
        yield self._part(begun, "car_head")
        seen = set()
        while left:
            is_node, cid = left.pop()
            if not is_node and cid in seen:
                continue
            section = self._part(begun, "car_section", cid=cid.bytes)
            if is_node:
                # The block stands behind a length, of which each byte but the last is 128 or more, and the CID.
                start = next(at for at, byte in enumerate(section) if byte < 128) + 1
                left += reversed(links(section[start + 36 :]))
            if cid not in seen:
                seen.add(cid)
                yield section

    def _begun(self) -> Tuple[int, List[Tuple[bool, Cid]]]:
        """The number of writes, and the blocks from which a file goes on, the last first: the root, and the commit if there is one."""
        number, root, commit = _library.count(), _library.room(), _library.room()
        with self._turn():
            self._answered("number", number=number)
            self._answered("root", root=root)
            has_commit = _library.call("commit", repository=self._raw, commit=commit) == 0
        return number.value, [(True, Cid(root.raw))] + ([(False, Cid(commit.raw))] if has_commit else [])

    def prove(self, key: Text) -> Sequence[bytes]:
        """The proof of a key: the nodes of its path, from the top, as `verify` takes them."""
        return Reader(self._filled("prove", key=text_of(key))).parts()

    def prove_change(self, changes: Mapping[Key, Optional[Cid]]) -> ChangeProof:
        """What changes make of the repository as it is, and what shows it to whoever knows its root: ask before they are applied. Each key gets
        a value, or goes where that is None. Nothing is changed by it."""
        own = ordered(changes)
        return proof_of(Reader(self._filled("prove_change", first=_room_for_proof(len(own)), **changes_of(own))), own)

    def prove_inversion(self, changes: Told) -> Sequence[bytes]:
        """The nodes that show that changes undone lead back from the repository as it is: each a key, what it had and what it has; the keys
        ascend. That each key has what is told is looked at, else a `Fault` OTHER_VALUE has its place; of what it had this repository knows
        nothing. To who doesn't know that some records have the root after they say nothing: `prove_change` shows a step."""
        place, told = _library.size(), told_of(changes)
        try:
            return Reader(self._filled("prove_inversion", first=_room_for_proof(len(changes)), place=place, **told)).parts()
        except Fault as fault:
            raise Fault(fault.number, place.value if fault.number == 33 else 0) from None


def _room_for_proof(changes: int) -> int:
    """Room for most proofs of so many changes: where it is too small all is made once more."""
    return 8192 + 4096 * min(changes, 4096)
