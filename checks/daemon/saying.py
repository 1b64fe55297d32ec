"""What a daemon says, also where nobody reads it."""
import os
import select

from checks.daemon.common import Daemon, fill_pipe, is_answered
from checks.parts.clients import connected, index_in
from checks.parts.frames import FULL, NOT_ALLOWED, append_frame, refused, reply_of, take
from checks.parts.scenes import scene
from checks.parts.wrong import expect, expect_true


@scene
def nobody_waits_for_who_reads_messages(room):
    """With a standard error that nobody reads, or a standard output, a daemon goes on and stops as ever."""
    store = room.store("store")
    readers = room.path("readers")
    daemon = Daemon(room, store, "--reader", readers, "--explain")
    for _ in range(2000):
        with connected(readers) as client:
            client.sendall(append_frame(b"not allowed"))
            expect(reply_of(client), refused(1, NOT_ALLOWED), "the reply to what isn't allowed")
            expect(take(client, 1), b"", "what follows the refusal")
    is_answered(daemon.socket)
    line = b"audit: client cut off: its socket doesn't allow the request\n"
    with open(daemon.process.stderr.fileno(), "rb", 0, closefd=False) as messages:
        found = b""
        while len(found) < 20 * 4096:
            if not select.select([messages], [], [], 0.5)[0]:
                break
            found += messages.read(4096)
    written = found.count(line)
    expect(found, line * written, "messages that had room")
    expect_true(500 < written < 2000, "%d messages had room" % written)
    with connected(readers) as client:
        client.sendall(append_frame(b"not allowed"))
        expect(reply_of(client), refused(1, NOT_ALLOWED), "the reply to what isn't allowed")
        expect(take(client, 1), b"", "what follows the refusal")
    order, (status, _, messages) = daemon.stop()
    expect((order, status), ((0, b"", b""), 0), "the end of a daemon")
    wanted = b"audit: messages left out: %d\n" % (2000 - written) + line + b"audit: clients dropped: 0, cut off: 2001\n"
    expect(messages, wanted, "messages after there was room again")
    expect_full_streams_harmless(room, store, readers)


def expect_full_streams_harmless(room, store, readers):
    """Nobody reads, up to the end."""
    # Nobody reads, up to the end.
    for full in ("stderr", "stdout"):
        reading, writing = os.pipe()
        daemon = Daemon(room, store, "--reader", readers, "--explain", stderr=writing) if full == "stderr" else None
        if daemon is None:
            begun = room.start("daemon", store, room.path("socket"), "--reader", readers, "--explain", stdout=writing)
            take_line(reading)
        fill_pipe(writing)
        with connected(readers) as client:
            client.sendall(append_frame(b"not allowed"))
            expect(reply_of(client), refused(1, NOT_ALLOWED), "the reply to what isn't allowed")
            expect(take(client, 1), b"", "what follows the refusal")
        expect(room.run("stop", room.path("socket")), (0, b"", b""), "stop of a daemon with a full %s" % full)
        if daemon is not None:
            expect(daemon.end()[0], 0, "the end of a daemon with a full %s" % full)
        else:
            expect_true(not os.path.lexists(room.path("socket")), "a stopped daemon leaves its socket")
            begun.kill()
        os.close(reading)
        os.close(writing)


def take_line(descriptor):
    found = b""
    while not found.endswith(b"\n"):
        found += os.read(descriptor, 1)
    return found


def mark(store, percent, left):
    return b"audit: %s: %d %% of its sectors are taken, %d are left for events\n" % (store.encode(), percent, left)


@scene
def a_daemon_says_how_full_it_is(room):
    """It says once of each mark that the log passes that it did, and at its start of the highest one that it is
    above."""
    store = room.store("store", sectors=101)
    # One sector is the reserve and two are the headers, and each of these events takes one.
    daemon = Daemon(room, store)
    said = []
    with connected(daemon.socket) as client:
        for count in range(1, 99):
            client.sendall(append_frame(b"event"))
            expect(index_in(reply_of(client)), count - 1, "the event before the last")
            while select.select([daemon.process.stderr], [], [], 0)[0]:
                said.append((count, daemon.process.stderr.readline()))
        client.sendall(append_frame(b"event", 1))
        expect(reply_of(client), refused(1, FULL), "an event for which there is no room")
    wanted = [(count, mark(store, percent, 98 - count)) for count, percent in ((78, 80), (88, 90), (98, 100))]
    expect(said, wanted, "what is said of each mark, before the event that passes it is acknowledged")
    daemon.stopped_well()
    for words, wanted in (([], mark(store, 100, 0)), (["--reserve", "0"], mark(store, 90, 1)),
                          (["--reserve", "1000"], mark(store, 100, 0))):
        daemon = Daemon(room, store, *words)
        is_answered(daemon.socket)
        daemon.stopped_well(wanted)
    # Several marks at once, and two that nothing passes.
    for name, sectors, events, wanted in (("several", 13, 9, (90, 1)), ("few", 13, 7, None)):
        store = room.store(name, sectors=sectors)
        daemon = Daemon(room, store)
        with connected(daemon.socket) as client:
            client.sendall(b"".join(append_frame(b"event", tag) for tag in range(events)))
            expect([index_in(reply_of(client)) for _ in range(events)], list(range(events)), "events that come at once")
        daemon.stopped_well(b"" if wanted is None else mark(store, *wanted))
    expect_marks_unread(room)


def expect_marks_unread(room):
    """Nobody reads what it says."""
    # Nobody reads what it says.
    store = room.store("silent", sectors=8)
    reading, writing = os.pipe()
    fill_pipe(writing)
    daemon = Daemon(room, store, stderr=writing)
    with connected(daemon.socket) as client:
        client.sendall(b"".join(append_frame(b"event", tag) for tag in range(5)))
        expect([index_in(reply_of(client)) for _ in range(5)], list(range(5)),
               "events beside messages that have no room")
    expect(room.run("stop", daemon.socket), (0, b"", b""), "stop of a daemon whose messages nobody reads")
    expect(daemon.end()[0], 0, "its end")
    os.close(reading)
    os.close(writing)
