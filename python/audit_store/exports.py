"""The events of an export, verified, and that of a proof, opened."""
import ctypes
import os
from ctypes import byref
from typing import BinaryIO, Callable, Dict, Iterable, Iterator, NamedTuple, Optional, Union

from audit_store._library import (
    BAD_PROOF, CAUSES, CLOSING, MORE, OK, PAYLOAD_MAX, GivenEvent, Verifier, library)
from audit_store.checking import BadProof, Commitment, given

# How much is read of a file at a time.
PIECE = 1 << 18


class Event(NamedTuple):
    """A verified event: its index in the log, its kind and its payload. One of the kind 0xffffffff closes the log."""

    index: int
    kind: int
    payload: bytes

    @property
    def closes(self) -> bool:
        return self.kind == CLOSING


class NotVerified(Exception):
    """The export isn't that of the commitment: the number and the name of the cause, and the number of valid entries
    before it."""

    def __init__(self, index: int, number: int) -> None:
        self.index, self.number, self.name = index, number, CAUSES.get(number, "Misused")
        super().__init__("entry %d: %d %s" % (index, number, self.name))


def open_proof(proof: bytes, commitment: Commitment, key: bytes) -> Optional[Event]:
    """The event of an inclusion proof, as its entry reads under the key of a receipt, or None if the proof isn't accepted
    under the commitment: as `audit check --key` has it. `BadProof` if the bytes are no such proof of an entry.

    Nobody vouches for the key. Under another one an entry reads as another text, and for a text of fewer than 16 bytes
    somebody who seals entries can search for a key under which it reads as another one that he chose."""
    if len(key) != 32:
        raise ValueError("a key has 32 bytes")
    event, payload = GivenEvent(), ctypes.create_string_buffer(PAYLOAD_MAX)
    answer = library.open_inclusion(proof, len(proof), given(commitment), bytes(key), byref(event), payload,
                                    PAYLOAD_MAX)
    if answer == BAD_PROOF:
        raise BadProof("not an inclusion proof of an entry")
    return Event(event.index, event.kind, ctypes.string_at(payload, event.size)) if answer == OK else None


class SavedState:
    """Where the verification of a log stands, as `audit verify --save` writes it: the text has the key of the next
    entry, with which every entry from there on can be read.

    Its text is read by the library, and written by this package, which is tested, and not proved.
    """

    def __init__(self, count: int, key: bytes, link: bytes, closed: bool, nodes: Dict[int, bytes]) -> None:
        self.count, self.key, self.link, self.closed, self.nodes = count, key, link, closed, nodes

    @classmethod
    def parse(cls, text: bytes) -> "SavedState":
        """Reads the text of a state. A ValueError says that it is none: a state has one text alone."""
        verifier = Verifier()
        try:
            if library.verify_state(text, len(text), byref(verifier)) != OK:
                raise ValueError("the text is not that of a state")
            return cls._of(verifier)
        finally:
            ctypes.memset(byref(verifier), 0, ctypes.sizeof(verifier))

    def _lines(self) -> bytes:
        lines = ["audit-state 1", "count %d" % self.count, "key " + self.key.hex(), "link " + self.link.hex(),
                 "log " + ("closed" if self.closed else "open")]
        lines += ["node " + self.nodes[layer].hex() for layer in sorted(self.nodes)]
        return "".join(line + "\n" for line in lines).encode()

    def text(self) -> bytes:
        """The text of the state, without the newest commitment that `audit read` keeps beside it."""
        # Only here, since it takes long to import.
        import hashlib
        lines = self._lines()
        return lines + b"sha256 " + hashlib.sha256(lines).hexdigest().encode() + b"\n"

    def _begin(self, verifier: Verifier) -> None:
        ctypes.memset(byref(verifier), 0, ctypes.sizeof(verifier))
        verifier.key[:], verifier.link[:] = self.key, self.link
        verifier.count, verifier.closed = self.count, int(self.closed)
        for layer, node in self.nodes.items():
            verifier.nodes[layer][:] = node

    @classmethod
    def _of(cls, verifier: Verifier) -> "SavedState":
        closed = verifier.closed == 1
        nodes = {layer: bytes(verifier.nodes[layer]) for layer in range(25) if verifier.count >> layer & 1}
        return cls(verifier.count, bytes(32) if closed else bytes(verifier.key), bytes(verifier.link), closed, nodes)


def _pieces(export: BinaryIO) -> Iterator[bytes]:
    return iter(lambda: export.read(PIECE), b"")


Start = Union[bytes, SavedState]
Save = Optional[Callable[[SavedState], object]]


def verify(export: Union[str, "os.PathLike[str]", BinaryIO, bytes, Iterable[bytes]], start: Start,
           commitment: Commitment, save: Save = None) -> Iterator[Event]:
    """The events of an export, in order, with the verdict of `audit verify`. `NotVerified` says what is wrong.

    `start` is the first key of the log; or a state, and then the export has the entries after it. Once all is verified
    and handed out, `save` is called with the state after the last entry.

    A path, an open file that can seek, and bytes are read twice, and no event is given before the whole export is
    verified. Of other iterables of bytes, cut anywhere, each event is given as soon as its entry is judged: that
    nothing is missing is only known if the iteration ends without an exception.

    >>> from audit_store import Commitment, verify
    >>> list(verify(b"", bytes(32), Commitment(0, bytes(32))))
    []
    >>> list(verify(b"x", bytes(32), Commitment(0, bytes(32))))
    Traceback (most recent call last):
    audit_store.exports.NotVerified: entry 0: 40 Short
    """
    if not isinstance(start, SavedState) and len(start) != 32:
        raise ValueError("a key has 32 bytes")
    if isinstance(export, (bytes, bytearray, memoryview)):
        whole = bytes(export)
        for _ in _events([whole], start, commitment, False):
            pass
        yield from _events([whole], start, commitment, True, save)
    elif isinstance(export, (str, os.PathLike)):
        with open(export, "rb") as file:
            yield from _twice(file, start, commitment, save)
    elif hasattr(export, "read") and export.seekable():
        yield from _twice(export, start, commitment, save)
    elif hasattr(export, "read"):
        yield from _events(_pieces(export), start, commitment, True, save)
    else:
        yield from _events(export, start, commitment, True, save)


def _twice(file: BinaryIO, start: Start, commitment: Commitment, save: Save) -> Iterator[Event]:
    place = file.tell()
    for _ in _events(_pieces(file), start, commitment, False):
        pass
    file.seek(place)
    # What changed since is found: the second reading is verified too.
    yield from _events(_pieces(file), start, commitment, True, save)


def _events(pieces: Iterable[bytes], start: Start, commitment: Commitment, wanted: bool,
            save: Save = None) -> Iterator[Event]:
    """The events, if they are wanted; the verdict at the end."""
    claimed, verifier, event = given(commitment), Verifier(), GivenEvent()
    payload = ctypes.create_string_buffer(PAYLOAD_MAX)
    state, found, feed = byref(verifier), byref(event), library.verify_feed
    if isinstance(start, SavedState):
        start._begin(verifier)
    else:
        library.verify_first(bytes(start), state)
    try:
        for piece in pieces:
            # `held` keeps the bytes where they are.
            held = bytes(piece)
            place, rest = ctypes.cast(held, ctypes.c_void_p).value or 0, len(held)
            while True:
                answer = feed(state, place, rest, found, payload, PAYLOAD_MAX)
                if answer == MORE:
                    break
                if answer != OK:
                    raise NotVerified(verifier.count, answer)
                place += event.taken
                rest -= event.taken
                if wanted:
                    yield Event(event.index, event.kind, ctypes.string_at(payload, event.size))
        answer = library.verify_end(state, claimed)
        if answer != OK:
            raise NotVerified(verifier.count, answer)
        if save is not None:
            save(SavedState._of(verifier))
    finally:
        # It has the log's key, and the payload's buffer an event.
        ctypes.memset(state, 0, ctypes.sizeof(verifier))
        ctypes.memset(payload, 0, PAYLOAD_MAX)
