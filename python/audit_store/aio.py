"""A client of a daemon for asyncio."""
import asyncio
import time
from ctypes import addressof, c_char
from typing import Callable, Dict, List, Optional, Sequence, Tuple, cast

from audit_store import _library as names
from audit_store.checking import Commitment, check
from audit_store.client import Acknowledgement, ConnectionEnded, Found, Frames, Refused, State, Unproved
from audit_store.places import Callers, Displaced, Place, Placing, Receipt


class AsyncClient:
    """One connection to a daemon, for one event loop. Calls may overlap: each is sent at once, and gets its own reply.

    After `ConnectionEnded` or a timeout the connection is over, and so are the calls that waited. Whether the event of
    a failed append is in the log isn't known.

        async with AsyncClient("/run/audit/log.sock") as log:
            await asyncio.gather(*(log.append(b"%d" % number) for number in range(100)))
    """

    def __init__(self, path: str, timeout: Optional[float] = 30.0, in_flight: int = 256) -> None:
        self._path, self._timeout, self._in_flight = path, timeout, in_flight
        self._frames = Frames()
        # The calls that wait: the kind of reply, the tag, and the reply itself.
        self._waiting: Dict[int, Tuple[int, "asyncio.Future[Found]"]] = {}
        self._places = asyncio.Semaphore(in_flight)
        self._writer: Optional[asyncio.StreamWriter] = None
        self._receiver: Optional["asyncio.Task[None]"] = None
        self._connecting = asyncio.Lock()

    async def __aenter__(self) -> "AsyncClient":
        await self._connected()
        return self

    async def __aexit__(self, *_: object) -> None:
        await self.close()

    async def close(self) -> None:
        """Ends the connection."""
        receiver = self._receiver
        self._end(ConnectionEnded("the client ended the connection"), self._writer)
        if receiver is not None:
            await asyncio.gather(receiver, return_exceptions=True)

    async def append(self, payload: bytes, kind: int = 1) -> Acknowledgement:
        """Appends an event, and returns once it is on the disk."""
        return (await self._ask(self._frames.append(kind, payload), names.ACKNOWLEDGEMENT)).acknowledgement()

    async def place(self, kind: int) -> Place:
        """How many events of a kind the log has, as `Client.place`."""
        return (await self._ask(self._frames.place(kind), names.PLACE)).place()

    async def append_placed(self, events: Sequence[bytes], kind: int, first: int, patience: float = 60.0,
                            acknowledged: Optional[Callable[[int, Receipt], object]] = None,
                            ) -> List[Optional[Receipt]]:
        """Appends events that their source numbers, each once and in order, as `Client.append_placed`."""
        placing = Placing(events, kind, first, acknowledged)
        pause, deadline = 0.01, time.monotonic() + patience
        while True:
            before = placing.stored
            try:
                fault: Optional[Exception] = await self._place(placing)
            except Callers as callers:
                raise cast(BaseException, callers.__cause__) from None
            except (ConnectionEnded, OSError, asyncio.TimeoutError) as lost:
                fault = lost
            if fault is None:
                return placing.receipts
            if placing.stored > before:
                pause, deadline = 0.01, time.monotonic() + patience
            elif time.monotonic() >= deadline:
                raise fault
            await asyncio.sleep(pause)
            pause = min(2 * pause, 1.0)

    async def _place(self, placing: Placing) -> Optional[Displaced]:
        """Goes on from what the log has. Nothing is returned if all events are there."""
        placing.begin((await self.place(placing.kind)).number)
        while not placing.is_done():
            window = range(placing.stored, min(placing.stored + self._in_flight, len(placing.events)))
            frames = [self._frames.placed_append(placing.kind, placing.first + at, placing.events[at]) for at in window]
            answers = await asyncio.gather(*(self._ask(frame, names.PLACED) for frame in frames),
                                           return_exceptions=True)
            for at, answer in zip(window, answers):
                if isinstance(answer, BaseException):
                    raise answer
                if answer.kind == names.PLACED:
                    placing.has_receipt(at, answer.receipt())
                elif not placing.has_number(at, answer.index):
                    return Displaced(placing.kind, answer.index, placing.first + at)
        return None

    async def commitment(self) -> Commitment:
        """The newest commitment."""
        return (await self._ask(self._frames.commitment(), names.COMMITMENT)).commitment

    async def state(self) -> State:
        """The state of the store."""
        return (await self._ask(self._frames.state(), names.STATE)).state

    async def entry(self, index: int) -> bytes:
        """The entry of an event, unchecked."""
        return (await self._ask(self._frames.entry(index), names.ENTRY)).entry()

    async def prove(self, index: int, commitment: Optional[Commitment] = None) -> bytes:
        """An inclusion proof that was checked, as `Client.prove`."""
        commitment = commitment or await self.commitment()
        found = await self._ask(self._frames.inclusion(index, commitment.count), names.INCLUSION)
        proof = found.proof(1, index, commitment.count)
        if not check(proof, commitment):
            raise Unproved("the inclusion proof of event %d isn't accepted" % index)
        return proof

    async def extends(self, older: Commitment, newer: Optional[Commitment] = None) -> bytes:
        """A consistency proof that was checked, as `Client.extends`."""
        newer = newer or await self.commitment()
        found = await self._ask(self._frames.consistency(older.count, newer.count), names.CONSISTENCY)
        proof = found.proof(2, older.count, newer.count)
        if not check(proof, older, newer):
            raise Unproved("the log of %d events isn't shown to extend that of %d" % (newer.count, older.count))
        return proof

    async def _connected(self) -> asyncio.StreamWriter:
        async with self._connecting:
            if self._writer is None:
                reader, self._writer = await asyncio.wait_for(
                    asyncio.open_unix_connection(self._path), self._timeout)
                self._receiver = asyncio.ensure_future(self._receive(reader, self._writer))
            return self._writer

    async def _ask(self, request: bytes, kind: int) -> Found:
        async with self._places:
            writer = await self._connected()
            tag = int.from_bytes(request[3:7], "big")
            reply: "asyncio.Future[Found]" = asyncio.get_running_loop().create_future()
            if self._writer is not writer:
                raise ConnectionEnded("the connection was given up")
            self._waiting[tag] = kind, reply
            writer.write(request)
            try:
                await writer.drain()
                return await asyncio.wait_for(reply, self._timeout)
            except (asyncio.TimeoutError, OSError) as fault:
                late = isinstance(fault, asyncio.TimeoutError)
                self._end(ConnectionEnded("the connection was given up"), writer)
                raise (TimeoutError("no reply in time") if late else ConnectionEnded(str(fault))) from None

    async def _receive(self, reader: asyncio.StreamReader, writer: asyncio.StreamWriter) -> None:
        """Hands out the replies as they come."""
        held = bytearray()
        try:
            while True:
                piece = await reader.read(1 << 16)
                if not piece:
                    raise ConnectionEnded("the server ended the connection")
                held += piece
                taken = 0
                while taken < len(held):
                    place = (c_char * len(held)).from_buffer(held)
                    is_whole = self._frames.read(addressof(place) + taken, len(held) - taken)
                    del place
                    if not is_whole:
                        break
                    size = self._frames.reply.size
                    self._hand_out(bytes(held[taken:taken + size]))
                    taken += size
                del held[:taken]
        except asyncio.CancelledError:
            raise
        except Exception as fault:
            self._end(fault if isinstance(fault, ConnectionEnded) else ConnectionEnded(str(fault)), writer)

    def _hand_out(self, frame: bytes) -> None:
        """Gives a reply to the call that has its tag. A refusal with tag 0 ends the session."""
        tag = self._frames.reply.tag
        kind, reply = self._waiting.pop(tag, (0, None))
        if reply is None:
            self._frames.judged(0, tag, frame)
            raise ConnectionEnded("the server answered a request that nobody made")
        try:
            found = self._frames.judged(kind, tag, frame)
        except Refused as refused:
            if not reply.done():
                reply.set_exception(refused)
            if refused.code in (16, 20):
                raise ConnectionEnded(str(refused)) from None
        except ConnectionEnded as fault:
            # The call doesn't wait among the others any more.
            if not reply.done():
                reply.set_exception(fault)
            raise
        else:
            if not reply.done():
                reply.set_result(found)

    def _end(self, fault: Exception, writer: Optional[asyncio.StreamWriter]) -> None:
        """Ends a connection and the calls that wait, unless another one took its place."""
        if writer is None or self._writer is not writer:
            return
        # Nothing is sent any more, and the task that receives hears of no other connection.
        writer.transport.abort()
        receiver, self._receiver, self._writer = self._receiver, None, None
        if receiver is not None and receiver is not asyncio.current_task():
            receiver.cancel()
        waiting, self._waiting = self._waiting, {}
        for _, reply in waiting.values():
            if not reply.done():
                reply.set_exception(fault)
                # Those of calls that were given up are read by nobody.
                reply.exception()
