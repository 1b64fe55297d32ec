"""Sources that number their events: each is in the log once, whatever is killed, and its receipt opens it."""
import asyncio
import os
import threading
import time

from checks.library import common
from checks.library.asked import FIRST_KEY, exported, expect_raised, liar
from checks.parts import frames, program
from checks.parts.daemons import FedDaemon
from checks.parts.logs import keys_from
from checks.parts.scenes import scene
from checks.parts.wrong import Wrong, expect, expect_true
from model.chain import keystream_key

KIND = 7


def fed(kind=KIND):
    """A daemon with a source's socket, and the path of that."""
    path = os.path.join(os.getcwd(), "source")
    return FedDaemon(os.getcwd(), common.sectors(), options=("--writer", "%d:%s" % (kind, path))), path


def expect_whole(daemon, payloads, receipts):
    """The events of the source are there once and in order, and each receipt has the index of its event and the model's
    key for its entry."""
    from audit_store import verify
    export, commitment = exported(daemon)
    held = list(verify(export, FIRST_KEY, commitment))
    own = [event for event in held if event.kind == KIND]
    expect((len(own), [event.payload for event in own] == payloads), (len(payloads), True), "the events of the source")
    keys = [key for key, _ in zip(keys_from(FIRST_KEY), held)]
    for number, receipt in enumerate(receipts):
        if receipt is not None:
            expect((receipt.index, receipt.key), (own[number].index, keystream_key(keys[own[number].index], KIND)),
                   "the receipt of event %d" % number)


@scene
def scene_source():
    """A source's events get receipts, whose keys open their proofs; what has no place is refused."""
    from audit_store import Client, Commitment, Place, open_proof
    daemon, path = fed()
    with daemon, Client(path) as source, Client(daemon.socket) as other:
        expect(source.place(KIND), Place(0, 0), "the place in an empty log")
        payloads = [b"", b"an event of more than 16 bytes", b"x" * 32688] + [b"%d" % number for number in range(300)]
        heard = []
        receipts = source.append_placed(payloads[:3], KIND, 0, acknowledged=lambda *said: heard.append(said))
        expect(heard, list(enumerate(receipts)), "the receipts that were handed out")
        other.append(b"of another kind")
        receipts += source.append_placed(payloads[3:], KIND, 3)
        expect(source.place(KIND), Place(303, 304), "the place after them")
        expect_whole(daemon, payloads, receipts)
        expect_receipts_open(source, receipts, payloads)
        again = source.append_placed(payloads + [b"one more"], KIND, 0)
        expect(again[:303], [None] * 303, "the receipts of events that are there already")
        expect(again[303].index, 304, "the receipt of the next one")
        expect_misplaced_refused(source)
        expect_uncounted_refused(source, other)
        expect_raised(ValueError, lambda: open_proof(b"", Commitment(0, bytes(32)), bytes(31)), "a key of 31 bytes")


def expect_receipts_open(source, receipts, payloads):
    """The key of a receipt opens the proof of its event, under its commitment alone."""
    from audit_store import open_proof
    for number in 0, 1, 2, 302:
        receipt = receipts[number]
        proof = source.prove(receipt.index, receipt.commitment)
        event = open_proof(proof, receipt.commitment, receipt.key)
        expect((event.index, event.kind, event.payload), (receipt.index, KIND, payloads[number]), "an opened event")
        expect(open_proof(proof, receipt.commitment._replace(root=bytes(32)), receipt.key), None, "another root")


def expect_misplaced_refused(source):
    """Events that come too early, are too long or have no place, and a caller that fails."""
    from audit_store import Displaced, Place
    expect(source.append_placed([], KIND, 304), [], "no event")
    expect_raised(Displaced, lambda: source.append_placed([b"a"], KIND, 305), "an event that comes too early")
    expect_raised(ValueError, lambda: source.append_placed([b"x" * 32689], KIND, 304), "a payload of 32,689 bytes")
    expect_raised(ValueError, lambda: source.append_placed([b"x"], KIND, -1), "a place below 0")
    expect_raised(ValueError, lambda: source.place(1 << 32), "a kind of 33 bits")

    def full(number, receipt):
        raise OSError(28, "the caller's")

    expect_raised(OSError, lambda: source.append_placed([b"kept"], KIND, 304, acknowledged=full), "a caller's fault")
    expect(source.place(KIND), Place(305, 306), "the place after that")


def expect_uncounted_refused(source, other):
    """A kind that the daemon doesn't count has no places."""
    from audit_store import Refused
    for call, code in ((lambda: other.place(8), 18), (lambda: source.append_placed([b"a"], 8, 0), 18)):
        try:
            call()
        except Refused as refused:
            expect(refused.code, code, "the refusal of a kind that isn't counted")
        else:
            raise Wrong("a kind that isn't counted has a place")


@scene
def scene_source_under_kills():
    """The daemon is killed under a source: each of its events is there once and in order."""
    from audit_store import Client
    kills = 200 if program.LONG else 8
    daemon, path = fed()
    with daemon:
        payloads = [b"event %d" % number for number in range(200 * kills)]
        receipts, is_over = [], threading.Event()

        def send():
            with Client(path, timeout=20) as source:
                receipts.extend(source.append_placed(payloads, KIND, 0))
            is_over.set()

        sender = threading.Thread(target=send)
        sender.start()
        for turn in range(kills):
            time.sleep(0.002 * (turn % 17))
            daemon.kill()
            daemon.start()
        # The source may have been done before the last kill; more kills then say no more.
        expect_true(is_over.wait(10 * program.SECONDS), "a source isn't done")
        sender.join()
        expect_true(any(receipts), "nothing was acknowledged")
        expect_whole(daemon, payloads, receipts)


@scene
def scene_killed_source():
    """A source is killed, and the next one goes on at the place of its kind."""
    from audit_store import Client
    kills = 20 if program.LONG else 4
    payloads = [b"event %d" % number for number in range(100 * kills)]
    daemon, path = fed()
    with daemon:
        for turn in range(kills):
            child = os.fork()
            if child == 0:
                try:
                    with Client(path) as source:
                        number = source.place(KIND).number
                        source.append_placed(payloads[number:], KIND, number, in_flight=8)
                finally:
                    os._exit(0)
            time.sleep(0.01 + 0.002 * turn)
            os.kill(child, 9)
            os.waitpid(child, 0)
        with Client(path) as source:
            number = source.place(KIND).number
            source.append_placed(payloads[number:], KIND, number)
        expect_whole(daemon, payloads, [])


@scene
def scene_async_source():
    """The same by asyncio, under kills."""
    from audit_store import AsyncClient, Displaced
    kills = 20 if program.LONG else 4
    daemon, path = fed()
    payloads = [b"event %d" % number for number in range(300 * kills)]

    async def send():
        async with AsyncClient(path, timeout=20, in_flight=64) as source:
            heard = []
            receipts = await source.append_placed(payloads, KIND, 0, acknowledged=lambda *said: heard.append(said))
            expect(heard, [(number, one) for number, one in enumerate(receipts) if one], "the receipts as they came")
            expect((await source.place(KIND)).number, len(payloads), "the place")
            try:
                await source.append_placed([b"early"], KIND, len(payloads) + 1)
            except Displaced:
                return receipts
            raise Wrong("an event that comes too early is appended")

    with daemon:
        found = []
        sender = threading.Thread(target=lambda: found.extend(asyncio.run(send())))
        sender.start()
        for turn in range(kills):
            time.sleep(0.02 + 0.003 * (turn % 17))
            daemon.kill()
            daemon.start()
        sender.join(10 * program.SECONDS)
        expect(len(found), len(payloads), "the answers to a source")
        expect_whole(daemon, payloads, found)


@scene
def scene_lying_place():
    """A server that says a place which the source can't go on from, or answers with another reply, is found out."""
    from audit_store import Client, ConnectionEnded, Displaced
    root = bytes(range(32))
    for replies, fault in (
            ([frames.place_reply(1, 4, 9)], Displaced),
            ([frames.place_reply(2, 5, 9)], ConnectionEnded),
            ([frames.place_reply(1, 5, 9), frames.acknowledgement(2, 0, 4, root)], ConnectionEnded),
            ([frames.place_reply(1, 5, 9), frames.placed_acknowledgement(3, 0, 4, root, root)], ConnectionEnded),
            ([frames.place_reply(1, 5, 9), frames.place_reply(2, 5, 9)], Displaced)):
        with liar(replies) as path, Client(path, timeout=5) as client:
            expect_raised(fault, lambda: client.append_placed([b"a"], KIND, 5, patience=0), "replies %r" % (replies,))


@scene
def scene_slow_source():
    """A source whose daemon starts later waits for it, and gives up in time if it never comes."""
    from audit_store import Client
    path = os.path.join(os.getcwd(), "source")
    begun = time.monotonic()
    expect_raised(FileNotFoundError, lambda: Client(path).append_placed([b"a"], KIND, 0, patience=0.5), "nobody")
    expect_true(0.4 < time.monotonic() - begun < 5, "a patience of 0.5 seconds takes another time")
    receipts = []
    sender = threading.Thread(target=lambda: receipts.extend(Client(path).append_placed([b"early"], KIND, 0)))
    sender.start()
    time.sleep(0.3)
    with fed()[0] as daemon:
        sender.join(program.SECONDS)
        expect_whole(daemon, [b"early"], receipts)
        expect(len(receipts), 1, "the receipts")
