"""Clients that are idle, half done, greedy or gone, beside others that behave well."""
import contextlib
import os
import random
import struct
import time

from checks.daemon.common import MOST_EVENTS, MOST_IN_SHORT, WATCHED, Crowd, Daemon, expect_kept, sectors_for
from checks.parts.clients import connected, in_process
from checks.parts.frames import APPEND_REPLY, COMMITMENT, COMMITMENT_REPLY, append_frame, entry_frame, reply_of, take
from checks.parts.program import SECONDS
from checks.parts.scenes import scene
from checks.parts.wrong import Wrong, expect, expect_true

# How much longer an append may wait beside a bad client, in seconds, and in the short form.
MOST = 0.050


def idle(path):
    streams = [connected(path)]
    time.sleep(SECONDS)
    return streams


def half_a_frame(path):
    stream = connected(path)
    stream.sendall(append_frame(b"half")[:7])
    time.sleep(SECONDS)


def never_reading(path):
    """Sends what is answered, and takes no reply, until it is dropped; then again."""
    while True:
        with contextlib.suppress(OSError), connected(path) as stream:
            while True:
                stream.sendall(COMMITMENT * 500)


def asking_for_entries(path):
    """Asks for the longest entries without end, sixteen at a time."""
    with connected(path) as stream:
        while True:
            stream.sendall(entry_frame(0) * 16)
            expect(len(take(stream, 16 * (2 + 5 + 32696 + 72))), 16 * (2 + 5 + 32696 + 72), "entries")


def asking_for_commitments(path, count=1 << 60):
    """Asks for this many commitments, or without end."""
    with connected(path) as stream:
        asked = 0
        while asked < count:
            stream.sendall(COMMITMENT * 585)
            take(stream, 585 * 47)
            asked += 585


def killed_at_random(path):
    """Clients that are killed while they append."""

    def append(path):
        with connected(path) as stream:
            while True:
                stream.sendall(append_frame(b"killed", 2) * 5)
                take(stream, 55)

    while True:
        with in_process(append, path):
            time.sleep(random.random() * 0.02)


BAD = [idle, half_a_frame, never_reading, asking_for_entries, asking_for_commitments, killed_at_random]


@scene
def nobody_waits_for_a_bad_client(room):
    """How long appends wait beside each kind of bad client, against how long they wait without it."""
    most = MOST if room.is_long else MOST_IN_SHORT
    for bad in BAD:
        found = []
        for _ in range(3):
            alone, beside = waits_beside(room, bad, 20 * WATCHED if room.is_long else WATCHED)
            found.append((alone, beside))
            if beside <= alone + most:
                break
        else:
            raise Wrong("%s: appends wait %s s without and with it"
                        % (bad.__name__, ["%.3f, %.3f" % pair for pair in found]))


def waits_beside(room, bad, seconds):
    """How long appends wait at most, in this time without a bad client and in as much with it, over a store of their
    own."""
    store = room.store("store", [b"x" * 32696], sectors=sectors_for(int(2 * seconds * MOST_EVENTS)))
    daemon = Daemon(room, store)
    crowd = Crowd(daemon.socket)
    crowd.run(0.1)
    alone = crowd.run(seconds)
    with in_process(bad, daemon.socket):
        time.sleep(0.02)
        beside = crowd.run(seconds)
    crowd.end()
    daemon.stopped_well()
    expect_kept(room, store, crowd.acknowledged, "beside %s" % bad.__name__)
    os.remove(store)
    return alone, beside


@scene
def slow_readers_keep_their_replies(room):
    """Of a client that takes no replies no more requests are taken than the backlog has replies for; whenever it takes
    them, however late, it has them all. Others are served meanwhile."""
    store = room.store("store", [b"x" * 20_000] * 16, sectors=1_000)
    for words in ([], ["--backlog", "65536"], ["--backlog", "0"]):
        daemon = Daemon(room, store, *words)
        client = connected(daemon.socket)
        client.settimeout(0.5)
        asked = 0
        with contextlib.suppress(OSError):
            for asked in range(16, 65, 16):
                client.sendall(b"".join(map(entry_frame, range(16))))
        other = connected(daemon.socket)
        other.sendall(append_frame(b"other") + COMMITMENT)
        expect([reply_of(other)[0] for _ in range(2)], [APPEND_REPLY, COMMITMENT_REPLY], "another client")
        other.close()
        client.settimeout(SECONDS)
        for number in range(asked):
            reply = reply_of(client)
            expect((reply[:1], len(reply)), (b"\x85", 5 + 72 + 20_000), "late reply %d of %d" % (number, asked))
        client.close()
        daemon.stopped_well()


@scene
def readers_leave_half_to_a_writer(room):
    """Beside readers that ask for entries without end a client that appends keeps a good part of its rate."""
    store = room.store("store", [b"x" * 32_696], sectors=sectors_for(int(6 * WATCHED * MOST_EVENTS)))
    daemon = Daemon(room, store)
    writer = Crowd(daemon.socket, 1)
    writer.run(0.2)
    rates = []
    for readers in (0, 15):
        with contextlib.ExitStack() as stack:
            for _ in range(readers):
                stack.enter_context(in_process(asking_for_entries, daemon.socket))
            time.sleep(0.3)
            begun = len(writer.acknowledged)
            writer.run(2 * WATCHED)
            rates.append(len(writer.acknowledged) - begun)
    writer.end()
    daemon.stopped_well()
    # The short form may run beside other work, on few processors, all of which the readers take.
    share = 0.4 if room.is_long else 0.02
    expect_true(rates[1] >= share * rates[0], "a writer appends %d events alone and %d beside readers" % tuple(rates))


@scene
def what_ended_clients_sent_is_stored(room):
    """A client that closes its connection without taking a reply: all that it had sent is stored, and whoever connects
    after it finds it there."""
    store = room.store("store", sectors=8_000)
    daemon = Daemon(room, store)
    for number in range(20):
        count = 150
        client = connected(daemon.socket)
        client.sendall(COMMITMENT * 100 + append_frame(b"sent %d" % number) * count)
        client.close()
        with connected(daemon.socket) as stream:
            stream.sendall(COMMITMENT)
            found = struct.unpack(">Q", reply_of(stream)[5:13])[0]
        expect(found, (number + 1) * count, "the events of clients that are gone")
    daemon.stopped_well()


@scene
def many_commitments_are_answered(room):
    """More than two million requests of one client, in the long form."""
    if not room.is_long:
        return
    daemon = Daemon(room, room.store("store"))
    asking_for_commitments(daemon.socket, 2_100_000)
    daemon.stopped_well()
