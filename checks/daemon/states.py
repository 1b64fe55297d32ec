"""What a daemon says of its state, and what is seen of its headers meanwhile."""
import struct
import threading

from checks.daemon.common import MOST_EVENTS, OWN, Daemon, sources_at
from checks.parts.clients import answers, answers_at_end, connected, index_in
from checks.parts.frames import (
    APPEND_REPLY, COMMITMENT, COMMITMENT_REPLY, MALFORMED, STATE, STATE_REPLY, append_frame, frame, refused, reply_of)
from checks.parts.logs import event_lines, payloads_of
from checks.parts.program import SECONDS
from checks.parts.scenes import scene
from checks.parts.waiting import wait_until
from checks.parts.wrong import expect, expect_true


class Appender(threading.Thread):
    """A client that appends without pause, and the roots that it was told of by their counts."""

    def __init__(self, path):
        super().__init__()
        self.path, self.roots, self.newest, self.asked_to_end = path, {}, 0, False

    def run(self):
        with connected(self.path) as stream:
            while not self.asked_to_end:
                stream.sendall(append_frame(b"x"))
                reply = reply_of(stream)
                if reply[:1] != bytes([APPEND_REPLY]):
                    return
                count = struct.unpack(">Q", reply[13:21])[0]
                self.roots[count] = reply[21:].hex()
                self.newest = count

    def end(self):
        self.asked_to_end = True
        self.join(SECONDS)


@scene
def headers_are_shown_beside_a_daemon(room):
    """While a daemon commits without pause, 300 looks at its headers or more: each has a commitment that it
    acknowledges, none older than one that it had acknowledged before, and one look's sectors are those of all. The
    daemon notices none of them."""
    sectors = MOST_EVENTS
    store = room.store("store", sectors=sectors)
    daemon = Daemon(room, store)
    appender = Appender(daemon.socket)
    appender.start()
    looks = []
    try:
        wait_until(lambda: appender.newest, "no acknowledgement")
        while len(looks) < 300 or looks[-1][0] < looks[0][0] + 20:
            expect_true(appender.is_alive(), "the daemon takes no more events after %d" % appender.newest)
            before = appender.newest
            words = room.done("show", "--header", "--free", store).decode().split()
            # Each event has a sector, so the count says where the log ends.
            count, root, end = int(words[1]), words[2], int(words[1]) + 2
            generation, shown = int(words[8]), words[3:8] + words[9:]
            expect(shown, ["sectors", str(sectors), "end", str(end), "generation", "version", "2", "state", "open",
                           "free", str(sectors - end)],
                   "the lines of a look")
            expect_true(before <= count <= appender.newest + 1,
                        "a look between acknowledged counts %d and %d: %d" % (before, appender.newest, count))
            looks.append((count, root, generation))
    finally:
        appender.end()
    for earlier, later in zip(looks, looks[1:]):
        expect_true(earlier[0] <= later[0] and earlier[2] <= later[2],
                    "a look that is older than the one before: %s, %s" % (earlier, later))
    for count, root, _ in looks:
        expect(root, appender.roots[count], "the root of a look at count %d" % count)
    daemon.stopped_well()
    expect(room.done("show", "--header", store), room.done("show", store), "the headers after the daemon's end")


def state_line(reply):
    """What `ask state` prints of this reply."""
    expect((reply[:5], len(reply)), (struct.pack(">BI", STATE_REPLY, 8), 72), "the reply to a request for the state")
    count, root, end, sectors, generation, version, mark = struct.unpack(">Q32sQQQHB", reply[5:])
    return b"commit %d %s sectors %d end %d generation %d version %d state %s free %d\n" % (
        count, root.hex().encode(), sectors, end, generation, version, [b"open", b"closed"][mark], sectors - end)


@scene
def a_daemon_says_its_state(room):
    """On each socket it is what the headers say of the store, with the newest commitment: before and after appends, in
    any batches, and after a close. An append that was sent with the question, before it or after it, is counted."""
    store = room.store("store", sectors=64)
    readers = room.path("readers")
    words, (source,) = sources_at(room, OWN)
    daemon = Daemon(room, store, "--allow-close", "--reader", readers, *words)

    def said():
        line = b" ".join(room.done("show", "--header", "--free", store).splitlines()) + b"\n"
        for path in (daemon.socket, readers, source):
            expect(room.done("ask", path, "state"), line, "the state on " + path)
            with connected(path) as client:
                client.sendall(STATE)
                expect(state_line(reply_of(client)), line, "the reply with the state on " + path)
            commitment = room.done("ask", path, "commitment").rstrip(b"\n")
            expect_true(line.startswith(commitment + b" sectors 64 "),
                        "the commitment %s of the state %s" % (commitment, line))
        return line

    lines = [said()]
    room.done("send", daemon.socket, "--window", "1", given=event_lines([b"one", b"x" * 1000, b""]))
    lines.append(said())
    with connected(source) as client:
        client.sendall(STATE + append_frame(b"two", 1, OWN) * 5 + STATE)
        expect([index_in(reply_of(client)) for _ in range(5)], list(range(3, 8)), "the appends beside a state")
        replies = [state_line(reply_of(client)) for _ in range(2)]
    lines.append(said())
    expect(replies, lines[2:] * 2, "the states beside appends")
    expect(room.done("ask", daemon.socket, "close")[:9], b"closed 9 ", "a close")
    lines.append(said())
    # A batch takes two generations, and an entry one sector or more.
    for line, wanted in zip(lines, ("2 generation 2 version 2 state open free 62",
                                    "7 generation 8 version 2 state open free 57",
                                    "12 generation 10 version 2 state open free 52",
                                    "13 generation 12 version 2 state closed free 51")):
        expect_true(line.endswith(b" end %s\n" % wanted.encode()), "%r, and not .. end %s" % (line, wanted))
    daemon.stopped_well()


@scene
def hostile_states_harm_nobody(room):
    """A request for the state that is longer or cut is malformed, and so is any in a session of `serve`. Many of them
    unread keep no other client waiting, and are all answered whenever they are taken."""
    store = room.store("store", payloads_of("before", 2))
    readers = room.path("readers")
    words, (source,) = sources_at(room, OWN)
    daemon = Daemon(room, store, "--reader", readers, "--backlog", "0", *words)
    line = room.done("ask", daemon.socket, "state")
    for path in (daemon.socket, readers, source):
        for piece in (frame(STATE[2:] + b"\0"), frame(STATE[2:-1]), frame(STATE[2:3])):
            found = answers(path, [STATE + piece + STATE])
            expect((state_line(found[0]), found[1:]), (line, [refused(0, MALFORMED)]), "a state of another length")
        for size in range(1, len(STATE)):
            found = answers_at_end(path, STATE + STATE[:size])
            expect((state_line(found[0]), found[1:]), (line, [refused(0, MALFORMED)]),
                   "a state that is cut at byte %d" % size)
    for path in (daemon.socket, readers, source):
        with connected(path) as gone:
            gone.sendall(STATE * 300)
    asking = connected(readers)
    asking.sendall(STATE * 300)
    with connected(daemon.socket) as other:
        other.sendall(append_frame(b"other"))
        expect(index_in(reply_of(other)), 2, "an append beside states that nobody reads")
    replies = [state_line(reply_of(asking)) for _ in range(300)]
    asking.close()
    after = room.done("ask", daemon.socket, "state")
    expect((sorted(set(replies) - {line, after}), replies[-1], replies), ([], after, sorted(replies)), "300 states")
    daemon.stopped_well()
    served = room.path("served")
    room.serve(store, served)
    found = answers_at_end(served, COMMITMENT + STATE + COMMITMENT)
    expect((found[0][:1], found[1:]), (bytes([COMMITMENT_REPLY]), [refused(0, MALFORMED)]),
           "a state in a session of serve")
