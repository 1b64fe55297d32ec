"""What each socket allows, and how a full log is closed."""
import os

from checks.daemon.common import Daemon
from checks.parts.clients import answers, connected, index_in
from checks.parts.frames import (
    APPEND_REPLY, CLOSE, COMMITMENT, COMMITMENT_REPLY, FULL, NOT_ALLOWED, append_frame, entry_frame, refused,
    reply_of)
from checks.parts.logs import payloads_of
from checks.parts.scenes import scene
from checks.parts.wrong import expect, expect_true


@scene
def rights_are_by_socket(room):
    """What a socket doesn't allow never reaches the store: it is refused after the replies to what the client sent
    before, and then the connection ends."""
    store = room.store("store", payloads_of("before", 2))
    readers = room.path("readers")
    daemon = Daemon(room, store, "--reader", readers, "--explain")
    for path, before, asked, replies in (
        (daemon.socket, append_frame(b"kept") + COMMITMENT, (CLOSE, 7), [APPEND_REPLY, COMMITMENT_REPLY]),
        (readers, COMMITMENT + entry_frame(1), (append_frame(b"not allowed", 9), 9), [COMMITMENT_REPLY, 0x85]),
        (readers, COMMITMENT, (CLOSE, 7), [COMMITMENT_REPLY]),
        (readers, b"", (append_frame(b"not allowed"), 1), []),
    ):
        request, tag = asked
        for pieces in ([before + request + COMMITMENT], [before, request, COMMITMENT],
                       [before + request[:2], request[2:] + COMMITMENT]):
            found = answers(path, pieces)
            expect([reply[0] for reply in found[:-1]], replies, "the replies before what isn't allowed")
            expect(found[-1:], [refused(tag, NOT_ALLOWED)], "the reply to what isn't allowed")
    order, (status, _, messages) = daemon.stop()
    expect((order[0], status), (0, 0), "the statuses")
    lines = b"audit: client cut off: its socket doesn't allow the request\n" * 12
    expect(messages, lines + b"audit: clients dropped: 0, cut off: 12\n", "the lines about clients that were cut off")
    expect(room.payloads(store)[2:], [b"kept"] * 3, "the store after requests that aren't allowed")
    closing = Daemon(room, store, "--allow-close")
    client = connected(closing.socket)
    client.sendall(CLOSE)
    expect(index_in(reply_of(client)), 5, "a close that is allowed")
    closing.stopped_well()
    expect_true(b"state closed" in room.done("show", store), "the log isn't closed")


@scene
def a_full_log_can_be_closed(room):
    """Events leave a sector free, or as many as --reserve says, and are then refused. A close may use it."""
    for words, events in (([], 3), (["--reserve", "2"], 2), (["--reserve", "0"], 4)):
        # Two sectors are the headers, and each of these events takes one.
        store = room.store("store%d" % events, sectors=6)
        daemon = Daemon(room, store, *words)
        client = connected(daemon.socket)
        client.sendall(b"".join(append_frame(b"event", tag) for tag in range(5)))
        replies = [reply_of(client) for _ in range(5)]
        expect([index_in(reply) for reply in replies[:events]], list(range(events)),
               "the events that fit beside the reserve")
        expect(replies[events:], [refused(tag, FULL) for tag in range(events, 5)], "the events that don't")
        daemon.stopped_well()
        closing = Daemon(room, store, "--allow-close", *words)
        client = connected(closing.socket)
        client.sendall(append_frame(b"event", 1) + CLOSE)
        expect(reply_of(client), refused(1, FULL), "an event after a restart")
        reply = reply_of(client)
        if words == ["--reserve", "0"]:
            expect(reply, refused(7, FULL), "a close without a reserve")
        else:
            expect(index_in(reply), events, "a close of a full log")
        closing.stopped_well()
        expect(b"state closed" in room.done("show", store), words != ["--reserve", "0"], "the log after a close")
        os.remove(store)
