"""A daemon with --until-free: it ends when an event finds no space, and nobody is told that the store is full."""
import contextlib
import os
import random
import re
import time

from checks.daemon.common import Daemon, expect_kept, logged
from checks.parts.clients import connected, in_process, index_in
from checks.parts.files import write
from checks.parts.frames import APPEND_REPLY, COMMITMENT, COMMITMENT_REPLY, append_frame, reply_of
from checks.parts.logs import payloads_of
from checks.parts.rooms import outcome
from checks.parts.scenes import scene
from checks.parts.wrong import expect, expect_true

HEADERS = 2


def filled_well(daemon):
    """It ends by itself, says so and nothing but how full the store is, and leaves no socket. Returns its count."""
    status, output, messages = daemon.end()
    count, root = daemon.room.commitment(daemon.store)
    expect((status, output), (0, b"full %d %s\n" % (count, root.encode())), "the end of a daemon whose store is full")
    full = rb"audit: \S+: \d+ % of its sectors are taken, \d+ are left for events\n"
    expect(re.sub(full, b"", messages), b"", "the messages of a daemon whose store is full")
    for path in (daemon.socket, daemon.socket + ".stop"):
        expect_true(not os.path.lexists(path), "a daemon whose store is full leaves %s" % path)
    return count


@scene
def a_full_store_ends_its_daemon(room):
    """What fits is acknowledged, and what is asked before is answered; the first event that doesn't fit isn't."""
    for words, events in ((["0"], 3), (["1"], 3), (["2"], 2), (["2", "--reserve", "3"], 1),
                          (["0", "--reserve", "0"], 4), (["18446744073709551615"], 0)):
        # Each of these events takes one sector.
        store = room.store("store", sectors=HEADERS + 4)
        daemon = Daemon(room, store, "--until-free", *words)
        client, other = connected(daemon.socket), connected(daemon.socket)
        other.sendall(COMMITMENT)
        expect(reply_of(other)[0], COMMITMENT_REPLY, "a commitment")
        client.sendall(COMMITMENT + b"".join(append_frame(b"event", tag) for tag in range(5)) + COMMITMENT)
        expect([index_in(reply_of(client)) for _ in range(events)], list(range(events)), "the events that fit")
        expect(reply_of(client)[0], COMMITMENT_REPLY, "what was asked before the event that doesn't fit")
        expect((reply_of(client), reply_of(other)), (b"", b""), "the ends of the connections")
        expect(filled_well(daemon), events, "the events of a store that is full")
        expect_true(b"state open" in room.done("show", store), "a store that is full was closed")
        os.remove(store)


@scene
def a_store_without_its_reserve_is_no_end(room):
    """Less than the reserve was free from the start: that isn't what the line `full` says."""
    store = room.store("store", payloads_of("before", 3), sectors=HEADERS + 4)
    daemon = Daemon(room, store, "--until-free", "0", "--reserve", "2")
    with connected(daemon.socket) as client:
        client.sendall(append_frame(b"event"))
        expect(reply_of(client), b"", "an event that doesn't fit")
    status, output, messages = daemon.end()
    expect((status, output), (1, b""), "the end of a daemon without its reserve")
    expect_true(messages.endswith(b"audit: 7 Full\n"), "the refusal of a daemon without its reserve: %r" % messages)
    expect(len(room.payloads(store)), 3, "the events of a store without its reserve")


@scene
def a_client_that_does_not_read_ends_too(room):
    """Whoever doesn't take its replies holds the end of a full store up for five seconds, and no longer."""
    daemon = Daemon(room, room.store("store", sectors=HEADERS + 2), "--until-free", "1")
    greedy, client = connected(daemon.socket), connected(daemon.socket)
    for _ in range(20 if room.is_long else 1):
        greedy.sendall(COMMITMENT * 500)
    daemon.settle()
    begun = time.monotonic()
    client.sendall(append_frame(b"one") + append_frame(b"two"))
    expect((index_in(reply_of(client)), reply_of(client)), (0, b""), "an event that fits, and one that doesn't")
    expect(filled_well(daemon), 1, "the events of a store that is full")
    took = time.monotonic() - begun
    expect_true(not room.is_long or 4.5 < took < 6, "the end of a full store takes %.1f s" % took)


@scene
def sources_keep_what_finds_no_space(room):
    """Two sources that send again go on in the next stores: each line is in one of them, once and in order."""
    lines = {name: [b"%s %d" % (name, number) for number in range(60)] for name in (b"one", b"other")}
    for name, found in lines.items():
        write(room.path(name.decode()), b"".join(line + b"\n" for line in found))
    senders, held = [], []
    for number in range(4):
        store = room.store("store%d" % number, sectors=HEADERS + 1 + random.randrange(10, 30))
        daemon = Daemon(room, store, "--until-free", "1")
        for name in () if senders else lines:
            with open(room.path(name.decode()), "rb") as file:
                senders.append(room.start("send", daemon.socket, "--text", "1", "--retry", "60", stdin=file))
        filled_well(daemon)
        held += room.payloads(store)
    last = Daemon(room, room.store("last"), "--until-free", "1")
    for sender in senders:
        expect(outcome(sender)[0], 0, "the status of a source")
    last.stopped_well()
    held += room.payloads(last.store)
    for name, found in lines.items():
        expect([payload for payload in held if payload.startswith(name + b" ")], found, "the events of a source")


def appending_until_gone(path, name, log):
    """Appends until the daemon is gone; logs each acknowledgement, and any other answer as what it is."""
    with open(log, "ab", buffering=0) as file, connected(path) as stream:
        for number in range(1 << 20):
            payload = b"%s %d" % (name.encode(), number)
            stream.sendall(append_frame(payload))
            reply = reply_of(stream)
            if not reply:
                return
            if reply[0] != APPEND_REPLY:
                file.write(b"-1 answered with %s\n" % reply.hex().encode())
                return
            file.write(b"%d %s\n" % (index_in(reply), payload))


@scene
def what_was_told_is_kept_to_the_end(room):
    """The daemon is killed until its store is full: what was acknowledged is in it, and nobody got another answer."""
    acknowledged, ends, kills = {}, 0, 0
    store = room.store("store", sectors=3000)
    while ends < 2:
        daemon = Daemon(room, store, "--until-free", "7")
        log = room.path("log%d" % (kills + ends))
        write(log, b"")
        with contextlib.ExitStack() as clients:
            for client in range(4):
                name = "life %d client %d" % (kills + ends, client)
                clients.enter_context(in_process(appending_until_gone, daemon.socket, name, log))
            if kills < 5:
                time.sleep(0.02 + 0.05 * random.random())
            if kills < 5 and daemon.process.poll() is None:
                daemon.kill()
                kills += 1
            else:
                filled_well(daemon)
                ends += 1
            time.sleep(0.01)
        acknowledged.update(logged(log))
    held = expect_kept(room, store, acknowledged, "to the end")
    expect_true(-1 not in acknowledged, "an append got another answer: %s" % acknowledged.get(-1))
    expect(HEADERS + len(held), 3000 - 7, "the sectors that are taken in the end")
