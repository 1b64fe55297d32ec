"""A client of a daemon, over its Unix socket."""
import contextlib
import ctypes
import os
import socket
import struct
import threading
import time
import weakref
from collections import deque
from ctypes import addressof, byref
from typing import Any, Callable, Deque, Iterable, Iterator, List, NamedTuple, Optional, Sequence, Tuple, Union, cast

from audit_store import _library as names
from audit_store._library import MALFORMED, OK, Reply, library
from audit_store.checking import Commitment, check
from audit_store.places import Callers, Displaced, Place, Placing, Receipt

# How many requests a client sends before it waits for a reply, at most.
IN_FLIGHT = 64
# The most that it may be told to: their replies fit into a socket while nobody reads them.
MOST_IN_FLIGHT = 256
_NO_MORE = object()
_REFUSALS = {4: "DamagedLog", 7: "Full", 8: "NoSuchVersion", 9: "Worn", 11: "Device", 13: "Closed", 16: "NotAllowed",
             18: "NotCounted", 20: "Malformed"}
# The two numbers at the head of a proof.
_HEAD = struct.Struct(">QQ")


class StoreError(Exception):
    """A request that wasn't answered as it should be."""


class Refused(StoreError):
    """The store refused a request, with this code and name of docs/refusals.md."""

    def __init__(self, code: int) -> None:
        self.code, self.name = code, _REFUSALS.get(code, "?")
        super().__init__("%d %s" % (code, self.name))


class ConnectionEnded(StoreError):
    """The server ended the connection, or what it sent is no reply. Requests without a reply may be done or not."""


class Unproved(StoreError):
    """A proof that the server gave isn't accepted under the commitment that it is to be held against."""


class Acknowledgement(NamedTuple):
    """An event is in the log, at this index, and this is a commitment to a log that has it."""

    index: int
    commitment: Commitment


class State(NamedTuple):
    """The state of a store: its commitment, its first free sector, its number of sectors, its generation, the version
    of its format, and whether the log is closed."""

    commitment: Commitment
    end: int
    sectors: int
    generation: int
    version: int
    closed: bool


def number(value: int) -> int:
    """An index or a count, which ctypes would cut to 64 bits."""
    if not 0 <= value < 1 << 64:
        raise ValueError("not an index or a count: %d" % value)
    return value


class Frames:
    """Requests as bytes and replies from bytes, by the library, without a socket."""

    def __init__(self) -> None:
        self.frame = ctypes.create_string_buffer(names.REQUEST_MAX)
        self.reply = Reply()
        self.tag = 0

    def next_tag(self) -> int:
        self.tag = self.tag % 0xffffffff + 1
        return self.tag

    def written(self, size: int) -> bytes:
        return ctypes.string_at(self.frame, size)

    def append(self, kind: int, payload: bytes) -> bytes:
        size = 0
        if 0 <= kind < 1 << 32:
            size = library.write_append(self.next_tag(), kind, payload, len(payload), self.frame, names.REQUEST_MAX)
        if not size:
            raise ValueError("an event that the store can't have: kind %d, %d bytes" % (kind, len(payload)))
        return self.written(size)

    def placed_append(self, kind: int, place: int, payload: bytes) -> bytes:
        size = 0
        if 0 <= kind < 1 << 32:
            size = library.write_placed_append(self.next_tag(), kind, place, payload, len(payload), self.frame,
                                               names.REQUEST_MAX)
        if not size:
            raise ValueError("an event that has no place: kind %d, %d bytes" % (kind, len(payload)))
        return self.written(size)

    def place(self, kind: int) -> bytes:
        if not 0 <= kind < 1 << 32:
            raise ValueError("not a kind: %d" % kind)
        return self.written(library.write_place(self.next_tag(), kind, self.frame, names.REQUEST_MAX))

    def commitment(self) -> bytes:
        return self.written(library.write_commitment(self.next_tag(), self.frame, names.REQUEST_MAX))

    def inclusion(self, index: int, count: int) -> bytes:
        return self.written(library.write_inclusion(self.next_tag(), number(index), number(count), self.frame,
                                                    names.REQUEST_MAX))

    def consistency(self, older: int, newer: int) -> bytes:
        return self.written(library.write_consistency(self.next_tag(), number(older), number(newer), self.frame,
                                                      names.REQUEST_MAX))

    def entry(self, index: int) -> bytes:
        return self.written(library.write_entry(self.next_tag(), number(index), self.frame, names.REQUEST_MAX))

    def close_log(self) -> bytes:
        return self.written(library.write_close(self.next_tag(), self.frame, names.REQUEST_MAX))

    def state(self) -> bytes:
        return self.written(library.write_state(self.next_tag(), self.frame, names.REQUEST_MAX))

    def read(self, place: int, size: int) -> int:
        """Reads the reply at an address into `reply`: whether it is whole. Raises `ConnectionEnded` if it is none."""
        answer = library.read_reply(place, size, byref(self.reply))
        if answer == MALFORMED:
            raise ConnectionEnded("the server sent what is no reply")
        return bool(answer == OK)

    def judged(self, kind: int, tag: int, whole: bytes) -> "Found":
        """The reply that was read, which has to be of this kind and to repeat the tag of the request. A placed append
        may also be answered by a place."""
        reply = self.reply
        if reply.kind == names.REFUSED:
            if reply.tag not in (tag, 0):
                raise ConnectionEnded("the server answered another request")
            raise Refused(reply.code)
        is_meant = reply.kind == kind or (kind, reply.kind) == (names.PLACED, names.PLACE)
        if not is_meant or reply.tag != tag:
            raise ConnectionEnded("the server answered another request")
        return Found(reply, whole)


class Found:
    """The fields of a reply, and its frame."""

    def __init__(self, reply: Reply, whole: bytes) -> None:
        self.kind, self.index, self.frame = reply.kind, reply.index, whole
        self.commitment = Commitment(reply.count, bytes(reply.root))
        self.state = State(self.commitment, reply.end, reply.sectors, reply.generation, reply.version,
                           reply.closed == 1)

    def acknowledgement(self) -> Acknowledgement:
        return Acknowledgement(self.index, self.commitment)

    def proof(self, mark: int, first: int, second: int) -> bytes:
        """The bytes of a proof, as `audit prove` writes them."""
        return bytes([mark]) + _HEAD.pack(first, second) + self.frame[7:]

    def entry(self) -> bytes:
        return self.frame[7:]

    def place(self) -> Place:
        return Place(self.index, self.commitment.count)

    def receipt(self) -> Receipt:
        return Receipt(self.index, self.commitment, self.frame[names.KEY_AT:])


class Client:
    """One connection to a daemon. Use one in each thread: a call that begins while another one is under way in another
    thread waits for it. One within another call of the same thread, as in `acknowledged` or a signal handler, raises
    RuntimeError.

    A call that fails with `ConnectionEnded` or `TimeoutError` ends the connection; the next call connects again. If
    there is nothing to connect to it raises the OSError of that. Whether the event of a failed append is in the log
    isn't known. A forked child connects again by itself.

        with Client("/run/audit/log.sock") as log:
            done = log.append(b"order 7 was shipped", kind=3)
            proof = log.prove(done.index, done.commitment)
    """

    def __init__(self, path: str, timeout: Optional[float] = 30.0) -> None:
        self._path, self._timeout = path, timeout
        self._frames = Frames()
        self._buffer = ctypes.create_string_buffer(1 << 17)
        self._start = self._end = 0
        self._lock, self._is_asking = threading.RLock(), False
        self._socket: Optional[socket.socket] = None
        _CLIENTS.add(self)

    def __enter__(self) -> "Client":
        return self

    def __exit__(self, *_: object) -> None:
        self.close()

    def close(self) -> None:
        """Ends the connection."""
        with self._lock:
            if self._socket is not None:
                self._socket.close()
            self._socket, self._start, self._end = None, 0, 0

    # ---- Asking

    def append(self, payload: bytes, kind: int = 1) -> Acknowledgement:
        """Appends an event, and returns once it is on the disk."""
        return self._ask(lambda: self._frames.append(kind, payload), names.ACKNOWLEDGEMENT).acknowledgement()

    def append_all(self, events: Iterable[Union[bytes, Tuple[int, bytes]]], kind: int = 1,
                   in_flight: int = IN_FLIGHT,
                   acknowledged: Optional[Callable[[Acknowledgement], object]] = None) -> List[Acknowledgement]:
        """Appends events in order, with up to `in_flight` requests under way at a time (256 at most), and returns their
        acknowledgements in the same order. An event is a payload, or a kind and a payload. The first refusal is raised
        once nothing is under way any more; the events after it may be in the log or not. `acknowledged` is called with
        each acknowledgement as it comes, also of those before a refusal or the end of the connection. What `events` or
        `acknowledged` raises ends the connection too, and is raised."""
        def heard(reply: Union[Acknowledgement, Refused]) -> None:
            if acknowledged is not None and isinstance(reply, Acknowledgement):
                acknowledged(reply)

        return self.append_and_hear(events, kind, in_flight, heard if acknowledged is not None else None)

    def append_and_hear(self, events: Iterable[Union[bytes, Tuple[int, bytes]]], kind: int, in_flight: int,
                        heard: Optional[Callable[[Union[Acknowledgement, Refused]], object]]) -> List[Acknowledgement]:
        """The same, where `heard` is called with the reply to each event, in their order, also with refusals."""
        frames, reply, done = self._frames, self._frames.reply, cast("List[Acknowledgement]", [])

        def written(event: Union[bytes, Tuple[int, bytes]]) -> bytes:
            of, payload = event if isinstance(event, tuple) else (kind, event)
            return frames.append(of, payload)

        def take(_: int) -> Optional[Exception]:
            if reply.kind != names.ACKNOWLEDGEMENT:
                return self._refusal(heard)
            done.append(Acknowledgement(reply.index, Commitment(reply.count, bytes(reply.root))))
            if heard is not None:
                heard(done[-1])
            return None

        with self._alone():
            fault = self._tried(iter(events), in_flight, written, take)
            if fault is not None:
                raise fault
            return done

    def place(self, kind: int) -> Place:
        """How many events of a kind the log has, where the daemon counts them (`--writer KIND:PATH`)."""
        return self._ask(lambda: self._frames.place(kind), names.PLACE).place()

    def append_placed(self, events: Sequence[bytes], kind: int, first: int, in_flight: int = IN_FLIGHT,
                      patience: float = 60.0, acknowledged: Optional[Callable[[int, Receipt], object]] = None,
                      ) -> List[Optional[Receipt]]:
        """Appends events of a kind that their source numbers, `first` being the number of the first one, and returns
        once each of them is in the log, once and in order, whatever connections and daemons are lost meanwhile. What
        isn't known to be there is sent again, at its place, for as long as that is heard of within `patience` seconds.

        A source that was killed goes on with the events from `place(kind).number` on. It never gives a number to another
        event, and nobody else appends events of its kind: nothing else is asked of it.

        Returns a receipt for each event, or None for one whose acknowledgement was lost: it is in the log, and its key
        can't be had again. `acknowledged` is called with the number of an event and its receipt as it comes. Raises
        `Displaced` if the log lacks events that this source numbered, `Refused` if it takes no more, and what ended the
        last connection once `patience` is over."""
        placing = Placing(events, kind, first, acknowledged)
        with self._alone():
            pause, deadline = 0.01, time.monotonic() + patience
            while True:
                before = placing.stored
                try:
                    fault: Optional[Exception] = self._place(placing, in_flight)
                except Callers as callers:
                    raise cast(BaseException, callers.__cause__) from None
                except (ConnectionEnded, OSError) as lost:
                    fault = lost
                if fault is None:
                    return placing.receipts
                if placing.stored > before:
                    pause, deadline = 0.01, time.monotonic() + patience
                elif time.monotonic() >= deadline:
                    raise fault
                time.sleep(pause)
                pause = min(2 * pause, 1.0)

    def _place(self, placing: Placing, in_flight: int) -> Optional[Displaced]:
        """Goes on from what the log has, over one connection. Nothing is returned if all events are there; otherwise
        where an event was refused for an earlier one that isn't."""
        frames, reply, first, kind = self._frames, self._frames.reply, placing.first, placing.kind
        base = addressof(self._buffer)
        placing.begin(self._asked(frames.place(kind), names.PLACE).place().number)
        start = asked = placing.stored
        at = start

        def written(event: bytes) -> bytes:
            nonlocal asked
            asked += 1
            return frames.placed_append(kind, first + asked - 1, event)

        def take(place: int) -> Optional[Exception]:
            nonlocal at
            at += 1
            if reply.kind == names.PLACED:
                key = ctypes.string_at(base + place + names.KEY_AT, 32)
                placing.has_receipt(at - 1, Receipt(reply.index, Commitment(reply.count, bytes(reply.root)), key))
            elif reply.kind != names.PLACE:
                return self._refusal(None)
            elif not placing.has_number(at - 1, reply.index):
                return Displaced(kind, reply.index, first + at - 1)
            return None

        events = (placing.events[number] for number in range(start, len(placing.events)))
        fault = self._tried(events, in_flight, written, take)
        if fault is None or isinstance(fault, Displaced):
            return fault
        raise fault

    def commitment(self) -> Commitment:
        """The newest commitment."""
        return self._ask(lambda: self._frames.commitment(), names.COMMITMENT).commitment

    def state(self) -> State:
        """The state of the store."""
        return self._ask(lambda: self._frames.state(), names.STATE).state

    def entry(self, index: int) -> bytes:
        """The entry of an event, as an export has it. It isn't checked: `prove` does."""
        return self._ask(lambda: self._frames.entry(index), names.ENTRY).entry()

    def prove(self, index: int, commitment: Optional[Commitment] = None) -> bytes:
        """An inclusion proof of an event under a commitment, or under the newest one, which was checked. `Unproved` if
        it isn't accepted."""
        commitment = commitment or self.commitment()
        found = self._ask(lambda: self._frames.inclusion(index, commitment.count), names.INCLUSION)
        proof = found.proof(1, index, commitment.count)
        if not check(proof, commitment):
            raise Unproved("the inclusion proof of event %d isn't accepted" % index)
        return proof

    def extends(self, older: Commitment, newer: Optional[Commitment] = None) -> bytes:
        """A consistency proof from an older commitment to a newer one, or to the newest, which was checked.
        `Unproved` if it isn't accepted: then the server hasn't shown that nothing before was changed."""
        newer = newer or self.commitment()
        found = self._ask(lambda: self._frames.consistency(older.count, newer.count), names.CONSISTENCY)
        proof = found.proof(2, older.count, newer.count)
        if not check(proof, older, newer):
            raise Unproved("the log of %d events isn't shown to extend that of %d" % (newer.count, older.count))
        return proof

    def close_log(self) -> Acknowledgement:
        """Closes the log, if the daemon allows it: no event can follow."""
        return self._ask(lambda: self._frames.close_log(), names.ACKNOWLEDGEMENT).acknowledgement()

    # ---- The connection

    @contextlib.contextmanager
    def _alone(self) -> Iterator[None]:
        """One call at a time, also in one thread."""
        with self._lock:
            if self._is_asking:
                raise RuntimeError("a call within another call of the same client")
            self._is_asking = True
            try:
                yield
            finally:
                self._is_asking = False

    def _connected(self) -> socket.socket:
        if self._socket is None:
            stream = socket.socket(socket.AF_UNIX, socket.SOCK_STREAM)
            try:
                stream.settimeout(self._timeout)
                stream.connect(self._path)
            except BaseException as fault:
                stream.close()
                if isinstance(fault, socket.timeout):
                    raise TimeoutError("no connection in time") from None
                raise
            self._socket = stream
        return self._socket

    def _after_fork(self) -> None:
        """In a child: the connection is the parent's, and another thread of the parent may have been in a call."""
        self._lock, self._is_asking, self._frames = threading.RLock(), False, Frames()
        self.close()

    def _ask(self, request: Callable[[], bytes], kind: int) -> Found:
        # The request is written under the lock too, since all share one buffer.
        with self._alone():
            return self._asked(request(), kind)

    def _asked(self, frame: bytes, kind: int) -> Found:
        stream, tag = self._connected(), int.from_bytes(frame[3:7], "big")
        try:
            self._send(stream, frame)
            return self._frames.judged(kind, tag, self._next_frame(stream, self._deadline()))
        except Refused as refused:
            if refused.code in (16, 20):
                self.close()
            raise
        except BaseException:
            self.close()
            raise

    def _send(self, stream: socket.socket, data: bytes) -> None:
        """Sends all, for as long as a call may take: the last reply may have left the socket less."""
        try:
            stream.settimeout(self._timeout)
            stream.sendall(data)
        except OSError as fault:
            raise _told(fault) from None

    def _deadline(self) -> Optional[float]:
        return None if self._timeout is None else time.monotonic() + self._timeout

    def _fill(self, stream: socket.socket, deadline: Optional[float]) -> None:
        """Receives once."""
        if self._start and self._end == len(self._buffer) or self._start == self._end:
            left = self._end - self._start
            ctypes.memmove(self._buffer, addressof(self._buffer) + self._start, left)
            self._start, self._end = 0, left
        if deadline is not None:
            left = deadline - time.monotonic()
            if left <= 0:
                raise TimeoutError("no reply in time")
            stream.settimeout(left)
        try:
            taken = stream.recv_into(memoryview(self._buffer)[self._end:])
        except OSError as fault:
            raise _told(fault) from None
        if not taken:
            raise ConnectionEnded("the server ended the connection")
        self._end += taken

    def _next_frame(self, stream: socket.socket, deadline: Optional[float]) -> bytes:
        while not self._frames.read(addressof(self._buffer) + self._start, self._end - self._start):
            self._fill(stream, deadline)
        size = self._frames.reply.size
        frame = ctypes.string_at(addressof(self._buffer) + self._start, size)
        self._start += size
        return frame

    def _refusal(self, heard: Optional[Callable[[Any], object]]) -> Refused:
        """The refusal that was read, in place of another reply."""
        reply = self._frames.reply
        if reply.kind != names.REFUSED:
            raise ConnectionEnded("the server answered another request")
        refused = Refused(reply.code)
        if heard is not None:
            heard(refused)
        return refused

    def _tried(self, events: Iterator[Any], in_flight: int, written: Callable[[Any], bytes],
               take: Callable[[int], Optional[Exception]]) -> Optional[Exception]:
        """As `_run`, over the connection that there is or a new one, which is ended if it is over."""
        stream = self._connected()
        try:
            fault = self._run(stream, events, min(max(1, in_flight), MOST_IN_FLIGHT), written, take)
        except BaseException:
            self.close()
            raise
        if isinstance(fault, Refused) and fault.code in (16, 20):
            self.close()
        return fault

    def _taken_up(self, events: Iterator[Any], room: int, written: Callable[[Any], bytes],
                  waiting: "Deque[int]") -> Tuple[List[bytes], Optional[Exception], bool]:
        """The frames of at most `room` next events, whose tags then wait; the fault of one that isn't an event; and
        whether no more follow."""
        frames: List[bytes] = []
        while len(frames) < room:
            event = next(events, _NO_MORE)
            if event is _NO_MORE:
                return frames, None, True
            try:
                frames.append(written(event))
            except ValueError as fault:
                return frames, fault, True
            waiting.append(self._frames.tag)
        return frames, None, False

    def _run(self, stream: socket.socket, events: Iterator[Any], in_flight: int, written: Callable[[Any], bytes],
             take: Callable[[int], Optional[Exception]]) -> Optional[Exception]:
        """Sends the frames of events, and hands each reply, in their order, to `take` with its place in the buffer. The
        first fault: an event that isn't one, or what `take` returns. No more is sent then, and all is answered."""
        reply, waiting = self._frames.reply, cast("Deque[int]", deque())
        wrong: Optional[Exception] = None
        reading, base, is_over = self._frames.read, addressof(self._buffer), False
        while True:
            if not is_over:
                sent, wrong, is_over = self._taken_up(events, in_flight - len(waiting), written, waiting)
                if sent:
                    self._send(stream, b"".join(sent))
            if not waiting:
                return wrong
            deadline = self._deadline()
            # One reply, and all others that came with it.
            while not reading(base + self._start, self._end - self._start):
                self._fill(stream, deadline)
            while waiting:
                place = self._start
                self._start += reply.size
                if reply.tag != waiting.popleft() and (reply.kind != names.REFUSED or reply.tag):
                    raise ConnectionEnded("the server answered another request")
                refused = take(place)
                if refused is not None:
                    wrong, is_over = wrong or refused, True
                    if reply.kind == names.REFUSED and reply.code in (16, 20):
                        # The session is over, and what still waits has no reply.
                        return refused
                if not reading(base + self._start, self._end - self._start):
                    break


def _told(fault: OSError) -> Exception:
    """What a caller is told of a fault of a connection."""
    if isinstance(fault, socket.timeout):
        return TimeoutError("no reply in time")
    return ConnectionEnded(str(fault))


_CLIENTS: "weakref.WeakSet[Client]" = weakref.WeakSet()


def _begin_again() -> None:
    """In a forked child."""
    for client in list(_CLIENTS):
        client._after_fork()


os.register_at_fork(after_in_child=_begin_again)
