"""Clients of a daemon that answers, is killed, or lies."""
import asyncio
import contextlib
import os
import socket
import sys
import threading
import time

from checks.library import common
from checks.parts import frames, program
from checks.parts.daemons import FedDaemon
from checks.parts.files import write
from checks.parts.places import KEY
from checks.parts.scenes import scene
from checks.parts.wrong import Wrong, expect, expect_true
from model.chain import log_of

FIRST_KEY = bytes.fromhex(open(KEY).read().strip())


def exported(daemon):
    """An export of the daemon's store, and the commitment to it, by the program."""
    from audit_store import Commitment
    word = daemon.commitment()
    program.done("ask", daemon.socket, "export", "exported")
    with open("exported", "rb") as file:
        return file.read(), Commitment.parse(word)


@scene
def scene_client():
    """What a client appends is what the program exports, and what it is answered is what the program says."""
    from audit_store import Client, StoreError
    with FedDaemon(os.getcwd()) as daemon, Client(daemon.socket) as log:
        expect_client_answered(daemon, log)
        expect_client_refused(log)
        program.done("stop", daemon.socket)
        try:
            log.append(b"gone")
        except (StoreError, OSError):
            pass
        else:
            raise Wrong("an append is acknowledged by nobody")


def expect_client_answered(daemon, log):
    """Acknowledgements, the state, events, entries and proofs of 204 events."""
    from audit_store import check, verify
    first = log.append(b"first", 7)
    expect((first.index, str(log.commitment())), (0, daemon.commitment()), "the first event")
    done = log.append_all([b"a", (9, b""), b"b" * 32696] + [b"%d" % number for number in range(200)], 3)
    expect([one.index for one in done], list(range(1, 204)), "the indices of events in order")
    newest = log.commitment()
    expect(str(newest), daemon.commitment(), "the newest commitment")
    state = log.state()
    expect((state.commitment, state.sectors, state.version, state.closed), (newest, 32768, 2, False), "the state")
    export, commitment = exported(daemon)
    wanted = [(7, b"first"), (3, b"a"), (9, b""), (3, b"b" * 32696)] + [(3, b"%d" % at) for at in range(200)]
    expect([(event.kind, event.payload) for event in verify(export, FIRST_KEY, commitment)], wanted, "the events")
    expect(log.entry(0), export[:77], "an entry")
    for index in (0, 3, 203):
        expect(check(log.prove(index), newest), True, "a proof that was checked")
    expect(check(log.extends(first.commitment), first.commitment, newest), True, "an increment that was checked")


def expect_client_refused(log):
    """What isn't there, what no log can have, and what isn't allowed; the client goes on after each."""
    from audit_store import Refused
    for call in (lambda: log.entry(204), lambda: log.prove(204)):
        try:
            call()
        except Refused as refused:
            expect((refused.code, refused.name), (8, "NoSuchVersion"), "a refusal")
        else:
            raise Wrong("an entry that isn't there is answered")
    for event in (b"x" * 32697, (0xffffffff, b"")):
        try:
            log.append_all([b"before", event, b"after"])
        except ValueError:
            pass
        else:
            raise Wrong("an event that no log can have is appended")
    expect(log.commitment().count, 206, "the events before those")
    try:
        log.close_log()
    except Refused as refused:
        expect(refused.name, "NotAllowed", "a close that isn't allowed")
    expect(log.commitment().count, 206, "a connection that is made again after a refusal that ends it")


@scene
def scene_async_client():
    """Many calls at a time over one connection."""
    from audit_store import AsyncClient, Refused, check, verify

    async def asked(path):
        async with AsyncClient(path) as log:
            done = await asyncio.gather(*(log.append(b"%d" % number) for number in range(300)))
            newest, state = await asyncio.gather(log.commitment(), log.state())
            expect(newest, state.commitment, "the newest commitment")
            proofs = await asyncio.gather(*(log.prove(one.index, newest) for one in done[:20]))
            expect([check(proof, newest) for proof in proofs], [True] * 20, "proofs")
            await log.extends(done[0].commitment)
            found = await asyncio.gather(log.entry(0), log.entry(1000), log.append(b"last"), return_exceptions=True)
            expect((len(found[0]), type(found[1]), found[2].index), (73, Refused, 300), "calls of which one is refused")
            return [one.index for one in done]

    with FedDaemon(os.getcwd()) as daemon:
        indices = asyncio.run(asked(daemon.socket))
        expect(sorted(indices), list(range(300)), "the indices")
        export, commitment = exported(daemon)
        payloads = [event.payload for event in verify(export, FIRST_KEY, commitment)]
        expect([payloads[index] for index in indices], [b"%d" % number for number in range(300)], "each at its index")


@scene
def scene_killed_daemon():
    """A daemon is killed under a client: each acknowledged event is there, at its index, and calls end with errors."""
    from audit_store import Client, StoreError, verify
    kills = 200 if program.LONG else 8
    acknowledged = {}
    with FedDaemon(os.getcwd(), common.sectors()) as daemon:
        log, number = Client(daemon.socket, timeout=20), 0

        def keep(events):
            def acknowledge(done):
                acknowledged[done.index] = events.pop(0)
                is_answered.set()
            return acknowledge

        def kill(after):
            is_answered.wait(program.SECONDS)
            time.sleep(after)
            daemon.kill()

        for turn in range(kills):
            is_answered = threading.Event()
            killer = threading.Thread(target=kill, args=(0.003 * (turn % 17),))
            killer.start()
            with contextlib.suppress(StoreError, OSError):
                while True:
                    events = [b"%d" % at for at in range(number, number + 100)]
                    number += 100
                    log.append_all(list(events), acknowledged=keep(events))
            killer.join()
            daemon.start()
        export, commitment = exported(daemon)
        payloads = [event.payload for event in verify(export, FIRST_KEY, commitment)]
        wrong = [index for index, payload in acknowledged.items() if payloads[index:index + 1] != [payload]]
        expect(wrong, [], "the acknowledged events that aren't at their index")
        expect_true(len(acknowledged) >= kills, "only %d events were acknowledged" % len(acknowledged))
        log.close()


@scene
def scene_threads():
    """16 threads with a client each, and 4 with one client."""
    from audit_store import Client, verify
    with FedDaemon(os.getcwd()) as daemon:
        found, shared = [], Client(daemon.socket)

        def append(log, name):
            for number in range(25):
                payload = b"%s %d" % (name, number)
                found.append((log.append(payload).index, payload))

        def alone(name):
            with Client(daemon.socket) as log:
                append(log, name)

        threads = [threading.Thread(target=alone, args=(b"thread %d" % number,)) for number in range(12)]
        threads += [threading.Thread(target=append, args=(shared, b"shared %d" % number)) for number in range(4)]
        sys.setswitchinterval(1e-5)
        for thread in threads:
            thread.start()
        for thread in threads:
            thread.join()
        sys.setswitchinterval(0.005)
        shared.close()
        export, commitment = exported(daemon)
        payloads = [event.payload for event in verify(export, FIRST_KEY, commitment)]
        expect(dict(found), dict(enumerate(payloads)), "each event at the index that was acknowledged")
        expect(len(found), 400, "the acknowledgements")


@scene
def scene_forked_client():
    """A child of a fork has a connection of its own."""
    from audit_store import Client
    with FedDaemon(os.getcwd()) as daemon, Client(daemon.socket) as log:
        log.append(b"before")
        child = os.fork()
        if child == 0:
            status = 1
            with contextlib.suppress(BaseException):
                status = 0 if log.append(b"child").index in (1, 2) else 1
            os._exit(status)
        mine = log.append(b"parent").index
        expect(os.waitpid(child, 0)[1], 0, "the child")
        expect_true(mine in (1, 2), "the parent's event is %d" % mine)
        expect(log.commitment().count, 3, "the events of both")


@contextlib.contextmanager
def liar(replies):
    """A server that answers the requests of one connection with these bytes, one for each, and then ends it."""
    server = socket.socket(socket.AF_UNIX, socket.SOCK_STREAM)
    server.bind("liar.sock")
    server.listen()

    def serve():
        with contextlib.suppress(OSError, EOFError):
            stream, _ = server.accept()
            with stream:
                for reply in replies:
                    frames.read_frame(stream)
                    stream.sendall(reply)

    thread = threading.Thread(target=serve, daemon=True)
    thread.start()
    try:
        yield "liar.sock"
    finally:
        server.close()
        thread.join(5)
        os.unlink("liar.sock")


@scene
def scene_liars():
    """A server that answers wrongly is found out: other tags and kinds, noise, wrong proofs, half a frame, silence."""
    from audit_store import Client, ConnectionEnded
    root = bytes(range(32))
    commitment = frames.commitment_reply(1, 4, root)
    for replies, fault in (
            ([frames.commitment_reply(2, 4, root)], ConnectionEnded),
            ([frames.acknowledgement(1, 0, 4, root)], ConnectionEnded),
            ([b"\0\1\0"], ConnectionEnded), ([b"\0\0"], ConnectionEnded), ([commitment[:20]], ConnectionEnded),
            ([], ConnectionEnded)):
        with liar(replies) as path, Client(path) as client:
            try:
                client.commitment()
            except fault:
                continue
            raise Wrong("a client takes %r for its reply" % (replies,))
    expect_wrong_proofs_found(root)
    expect_silence_ends()


def expect_wrong_proofs_found(root):
    """Proofs whose hashes aren't those of the log."""
    from audit_store import Client, Commitment, Unproved
    log = log_of([(1, b"%d" % number) for number in range(4)])
    claimed, hashes = Commitment(4, root), [bytes(32)] * 2
    with liar([frames.member_reply(1, hashes, log.entries[0])]) as path, Client(path) as client:
        try:
            client.prove(0, claimed)
        except Unproved:
            pass
        else:
            raise Wrong("a wrong proof is taken")
    with liar([frames.increment_reply(1, hashes)]) as path, Client(path) as client:
        try:
            client.extends(Commitment(2, root), claimed)
        except Unproved:
            pass
        else:
            raise Wrong("a wrong increment is taken")


def expect_silence_ends():
    """A client gives up after its timeout."""
    from audit_store import Client
    server = socket.socket(socket.AF_UNIX, socket.SOCK_STREAM)
    server.bind("silent.sock")
    server.listen()
    begun = time.monotonic()
    try:
        Client("silent.sock", timeout=0.3).commitment()
    except TimeoutError:
        pass
    else:
        raise Wrong("silence is an answer")
    expect_true(time.monotonic() - begun < 10, "a timeout of 0.3 seconds takes longer")
    server.close()


def expect_raised(fault, call, what):
    try:
        call()
    except Exception as found:
        expect(type(found), fault, what)
    else:
        raise Wrong("%s raises nothing" % what)


@scene
def scene_wrong_calls():
    """What a caller gives that isn't an event, an index or a count is refused, and what it raises itself is its own."""
    from audit_store import Client, Commitment
    with FedDaemon(os.getcwd()) as daemon, Client(daemon.socket, timeout=20) as log:
        log.append(b"first")
        expect_raised(TypeError, lambda: log.append_all([b"a", None, b"b"]), "an event that is None")
        for index in -1, 1 << 64:
            expect_raised(ValueError, lambda: log.entry(index), "the entry %d" % index)
            expect_raised(ValueError, lambda: log.prove(index), "the proof of %d" % index)
            expect_raised(ValueError, lambda: log.extends(Commitment(index, bytes(32))), "a log of %d" % index)

        def ends():
            yield b"x"
            raise FileNotFoundError("the caller's")

        def full(_):
            raise OSError(28, "the caller's")

        expect_raised(FileNotFoundError, lambda: log.append_all(ends()), "events that end with a fault")
        expect_raised(OSError, lambda: log.append_all([b"y"], acknowledged=full), "an acknowledgement that isn't kept")
        expect_raised(RuntimeError, lambda: log.append_all([b"z"], acknowledged=lambda _: log.append(b"within")),
                      "a call in a call")
        before = log.commitment().count
        done = log.append_all([b"%d" % number for number in range(5000)], in_flight=5000)
        expect([one.index for one in done], list(range(before, before + 5000)), "5,000 events at once")


EMPTY_COMMITMENT = b"\0\x2d\x82%s" + bytes(40)


@scene
def scene_async_liars():
    """A reply of another kind ends its call at once, and a connection that was given up is heard no more."""
    from audit_store import AsyncClient, ConnectionEnded

    async def asked():
        async with await asyncio.start_unix_server(answer_of_another_kind, "kinds.sock"):
            async with AsyncClient("kinds.sock", timeout=None) as log:
                with contextlib.suppress(ConnectionEnded):
                    await asyncio.wait_for(log.append(b"x" * 20), 20)
                    raise Wrong("a commitment is taken for an acknowledgement")
        async with await asyncio.start_unix_server(late_answers(), "late.sock", limit=1024):
            log = AsyncClient("late.sock", timeout=0.5)
            found = await asyncio.gather(*(log.append(b"x" * 30000) for _ in range(30)), return_exceptions=True)
            expect_true(all(isinstance(one, (TimeoutError, ConnectionEnded)) for one in found), "appends in vain")
            log._timeout = 20
            expect((await log.commitment()).count, 0, "the reply over the next connection")
            await log.close()

    asyncio.run(asked())


async def answer_of_another_kind(reader, writer):
    writer.write(EMPTY_COMMITMENT % (await reader.readexactly(10))[3:7])
    await reader.read()
    writer.close()


def late_answers():
    """A server whose first connection is neither read nor answered in time: the client's socket stays full."""
    turns = []

    async def late(reader, writer):
        turns.append(writer)
        if len(turns) == 1:
            await asyncio.sleep(1)
            writer.write(EMPTY_COMMITMENT % b"\0\0\0\1")
        else:
            tag = (await reader.readexactly(7))[3:7]
            await asyncio.sleep(1.5)
            writer.write(EMPTY_COMMITMENT % tag)
        with contextlib.suppress(OSError):
            await reader.read()
        writer.close()

    return late
