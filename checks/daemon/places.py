"""The places of a daemon: who has one, who waits, and for how long."""
import resource
import select
import struct
import time

from checks.daemon.common import (
    GOOD, MOST_IN_SHORT, OWN, PLACES, Daemon, expect_kept, is_answered, sectors_for, sources_at)
from checks.parts.clients import connected, index_in
from checks.parts.frames import COMMITMENT, COMMITMENT_REPLY, append_frame, reply_of, take
from checks.parts.scenes import scene
from checks.parts.wrong import expect, expect_true


@scene
def the_idle_make_room(room):
    """A client that moves no byte for the time is dropped where another one waits, the one that is idle for longest
    first."""
    store = room.store("store")
    daemon = Daemon(room, store, "--idle", "1", "--explain")
    streams = []
    for _ in range(PLACES):
        streams.append(connected(daemon.socket))
        streams[-1].sendall(COMMITMENT)
        reply_of(streams[-1])
    time.sleep(0.5)
    for stream in streams[1:]:
        stream.sendall(COMMITMENT)
        reply_of(stream)
    time.sleep(0.2)
    begun = time.monotonic()
    late = connected(daemon.socket)
    late.sendall(append_frame(b"late"))
    expect(index_in(reply_of(late)), 0, "a client that waited")
    waited = time.monotonic() - begun
    expect_true(0.1 < waited < 0.6, "a client waits %.2f s for the place of an idle one" % waited)
    expect(take(streams[0], 1), b"", "the client that was idle for longest")
    for stream in streams[1:]:
        stream.sendall(COMMITMENT)
        expect(reply_of(stream)[0], COMMITMENT_REPLY, "a client that wasn't idle for so long")
    order, (status, _, messages) = daemon.stop()
    expect((order[0], status), (0, 0), "the statuses")
    wanted = b"audit: client dropped: it was idle while another one waited\naudit: clients dropped: 1, cut off: 0\n"
    expect(messages, wanted, "the lines about an idle client")


@scene
def clients_come_and_go(room):
    """200 in turn, and 40 at once, of which 16 have places: each is served, with its own replies."""
    store = room.store("store", sectors=2000)
    daemon = Daemon(room, store)
    acknowledged = {}
    for number in range(200):
        payload = b"in turn %d" % number
        with connected(daemon.socket) as stream:
            stream.sendall(append_frame(payload))
            acknowledged[index_in(reply_of(stream))] = payload
    streams = [connected(daemon.socket) for _ in range(40)]
    for number, stream in enumerate(streams):
        stream.sendall(append_frame(b"at once %d" % number, number))
    for number, stream in enumerate(streams):
        reply = reply_of(stream)
        expect(struct.unpack(">I", reply[1:5])[0], number, "the tag of a reply")
        acknowledged[index_in(reply)] = b"at once %d" % number
        stream.close()
    expect(len(acknowledged), 240, "acknowledgements")
    daemon.stopped_well()
    expect(len(expect_kept(room, store, acknowledged, "clients that come and go")), 240, "events")


def with_descriptors(limit):
    """Lets a child have this many descriptors, if it may."""
    most = resource.getrlimit(resource.RLIMIT_NOFILE)[1]
    limit = limit if most == resource.RLIM_INFINITY else min(limit, most)

    def prepare():
        resource.setrlimit(resource.RLIMIT_NOFILE, (limit, limit))

    return prepare


@scene
def the_silent_wait_outside(room):
    """Connections that have sent nothing hold no place: a newcomer that speaks is served within a second beside
    4,000."""
    soft, most = resource.getrlimit(resource.RLIMIT_NOFILE)
    resource.setrlimit(resource.RLIMIT_NOFILE, (most, most))
    store = room.store("store")
    for limit, count in ((16384, 4000), (80, 400)):
        daemon = Daemon(room, store, "--reader", room.path("readers"), "--idle", "0",
                        preexec_fn=with_descriptors(limit))
        silent = [connected(daemon.socket) for _ in range(count)]
        daemon.settle()
        is_answered(daemon.socket, 1.0 if room.is_long else MOST_IN_SHORT)
        is_answered(room.path("readers"), 1.0 if room.is_long else MOST_IN_SHORT)
        spoken = silent[-1]
        spoken.sendall(append_frame(b"at last"))
        index_in(reply_of(spoken))
        daemon.stopped_well()
        for stream in silent:
            stream.close()
    daemon = Daemon(room, store, "--explain", preexec_fn=with_descriptors(80))
    silent = [connected(daemon.socket) for _ in range(200)]
    is_answered(daemon.socket)
    expect(take(silent[0], 1), b"", "the oldest silent connection")
    messages = daemon.stop()[1][2].splitlines()
    line = b"audit: client dropped: it had sent nothing, and no further one could be accepted"
    expect_true(messages[:-1] == [line] * (len(messages) - 1) and len(messages) > 100, "messages %r" % messages[-2:])
    expect(messages[-1], b"audit: clients dropped: %d, cut off: 0" % (len(messages) - 1), "the last message")
    for stream in silent:
        stream.close()
    resource.setrlimit(resource.RLIMIT_NOFILE, (soft, most))


@scene
def neither_side_takes_every_place(room):
    """Readers hold at most 15 of the places, and all others 15, sources among them. The idle make room for who waits
    for their place."""
    store = room.store("store")
    readers = room.path("readers")
    words, (source,) = sources_at(room, OWN)
    for first, second in ((None, readers), (readers, None), (source, readers), (readers, source)):
        daemon = Daemon(room, store, "--reader", readers, *words, "--idle", "0")
        holding = [connected(first or daemon.socket) for _ in range(20)]
        for stream in holding:
            stream.sendall(COMMITMENT)
        for stream in holding[:GOOD]:
            expect(reply_of(stream)[:1], bytes([COMMITMENT_REPLY]), "a commitment")
        is_answered(second or daemon.socket)
        daemon.settle()
        expect(select.select(holding[GOOD:], [], [], 0.1)[0], [], "a sixteenth client of one side")
        holding[0].close()
        expect(reply_of(holding[GOOD])[:1], bytes([COMMITMENT_REPLY]), "the one that waited")
        for stream in holding:
            stream.close()
        daemon.stopped_well()


@scene
def what_a_client_had_sent_comes_first(room):
    """A client that sends more than a pass reads, closes its connection and comes again, finds what it had sent."""
    turns = room.tries(6)
    store = room.store("store", sectors=sectors_for(70 * turns))
    readers = room.path("readers")
    daemon = Daemon(room, store, "--reader", readers)
    for turn in range(turns):
        with connected(daemon.socket) as first:
            first.sendall(append_frame(b"turn %d" % turn + bytes(32_000)))
        with connected(readers if turn % 2 else daemon.socket) as second:
            second.sendall(COMMITMENT)
            count = struct.unpack(">Q", reply_of(second)[5:13])[0]
        expect(count, turn + 1, "the events after one that was sent before")
    daemon.stopped_well()
