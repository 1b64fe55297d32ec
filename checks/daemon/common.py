"""What the scenes of daemons share."""
import contextlib
import os
import re
import select
import subprocess
import time

from checks.parts import daemons
from checks.parts.clients import connected, index_in
from checks.parts.files import read
from checks.parts.frames import COMMITMENT, COMMITMENT_REPLY, KIND, append_frame, is_whole, reply_of
from checks.parts.program import SECONDS
from checks.parts.wrong import expect, expect_true

PLACES = 16
GOOD = PLACES - 1
MOST_IN_SHORT = 5.0
# How long a bad client is watched, in seconds.
WATCHED = 0.5
# More events than a daemon takes in a second, of one sector each.
MOST_EVENTS = 150_000


class Daemon(daemons.Daemon):
    """A daemon of a room's store. It may say something only where that is read."""

    def __init__(self, room, store, *words, socket_name="socket", **how):
        self.room = room
        how = {"stdin": subprocess.DEVNULL, "stderr": subprocess.PIPE, "cwd": room.folder, **how}
        super().__init__(store, room.path(socket_name), *words, **how)

    def stop(self):
        """The status of the order to stop, and how the daemon ended."""
        order = self.room.run("stop", self.socket)
        return order, self.end()

    def stopped_well(self, messages=None):
        """Stops it. It says nothing but what is expected; if that isn't given, nothing but how full the store is."""
        order, (status, output, found) = self.stop()
        expect(order, (0, b"", b""), "stop")
        if messages is None:
            full = rb"audit: \S+: \d+ % of its sectors are taken, \d+ are left for events\n"
            found, messages = re.sub(full, b"", found), b""
        expect((status, found), (0, messages), "the end of a daemon")
        count, root = self.room.commitment(self.store)
        expect(output, b"stopped %d %s\n" % (count, root.encode()), "the last line of a daemon")
        for path in (self.socket, self.socket + ".stop"):
            expect_true(not os.path.lexists(path), "a stopped daemon leaves %s" % path)

    def settle(self):
        """Waits until it has nothing to do: a busy machine may leave it without a processor for some time."""
        before, idle = None, 0
        while idle < 4:
            now = self.ticks()
            idle = idle + 1 if now == before else 0
            before = now
            time.sleep(0.05)

    def ticks(self):
        """The processor time that it has taken, in ticks, and how often it has waited."""
        with open("/proc/%d/stat" % self.process.pid) as file:
            fields = file.read().rsplit(")", 1)[1].split()
        with open("/proc/%d/status" % self.process.pid) as file:
            waits = [int(line.split()[1]) for line in file if line.startswith("voluntary")]
        return int(fields[11]) + int(fields[12]), waits[0]


class Crowd:
    """Clients that append, each with one append in flight, and what was acknowledged to them."""

    def __init__(self, path, count=GOOD, name="crowd", kind=KIND):
        self.streams = [connected(path) for _ in range(count)]
        self.name, self.number, self.kind = name, 0, kind
        self.acknowledged = {}

    def payload(self):
        self.number += 1
        return b"%s %d" % (self.name.encode(), self.number)

    def run(self, seconds):
        """The longest time that an append waited."""
        poll, by_number, sent, parts = select.poll(), {}, {}, {}
        for stream in self.streams:
            poll.register(stream, select.POLLIN)
            by_number[stream.fileno()] = stream
            parts[stream] = b""
        end = time.monotonic() + seconds
        longest = 0.0
        for stream in self.streams:
            sent[stream] = self.send(stream)
        while sent:
            ready = poll.poll(SECONDS * 1000)
            expect_true(ready, "an append is never answered")
            for number, _ in ready:
                stream = by_number[number]
                parts[stream] += stream.recv(55 - len(parts[stream]))
                expect_true(parts[stream], "a client that behaves well is dropped")
                if not is_whole(parts[stream]):
                    continue
                begun, payload = sent.pop(stream)
                now = time.monotonic()
                longest = max(longest, now - begun)
                self.acknowledged[index_in(parts[stream][2:])] = payload
                parts[stream] = b""
                if now < end:
                    sent[stream] = self.send(stream)
        return longest

    def send(self, stream):
        payload = self.payload()
        stream.sendall(append_frame(payload, kind=self.kind))
        return time.monotonic(), payload

    def end(self):
        for stream in self.streams:
            stream.close()


def expect_kept(room, store, acknowledged, what):
    """Each acknowledged event is in the store at its index."""
    held = room.payloads(store)
    for index, payload in acknowledged.items():
        expect_true(index < len(held) and held[index] == payload,
                    "%s: event %d was acknowledged and is lost" % (what, index))
    return held


def sectors_for(events):
    return 1000 + events


def appending(path, name, log):
    """Appends until the daemon is gone, and logs each acknowledgement once it is read."""
    with open(log, "ab", buffering=0) as file, connected(path) as stream:
        number = 0
        while True:
            number += 1
            payload = b"%s %d" % (name.encode(), number)
            stream.sendall(append_frame(payload))
            reply = reply_of(stream)
            if not reply:
                return
            file.write(b"%d %s\n" % (index_in(reply), payload))


def logged(path):
    found = {}
    for line in read(path).splitlines():
        index, payload = line.split(b" ", 1)
        found[int(index)] = payload
    return found


def is_answered(path, seconds=MOST_IN_SHORT):
    """A newcomer gets a commitment, and waits no longer than this."""
    begun = time.monotonic()
    with connected(path) as client:
        client.sendall(COMMITMENT)
        expect(reply_of(client)[:1], bytes([COMMITMENT_REPLY]), "a commitment")
    waited = time.monotonic() - begun
    expect_true(waited < seconds, "a newcomer waits %.1f s" % waited)


# The kinds of two sources. Events of KIND are bound to none.
OWN, OTHER = 0, (1 << 32) - 2


def sources_at(room, *kinds):
    """The words for sources of these kinds, and the paths of their sockets."""
    paths = [room.path("source%d" % kind) for kind in kinds]
    return [word for kind, path in zip(kinds, paths) for word in ("--writer", "%d:%s" % (kind, path))], paths


def fill_pipe(writing):
    """Leaves no room in a pipe, at which nobody waits then."""
    os.set_blocking(writing, False)
    with contextlib.suppress(BlockingIOError):
        while True:
            os.write(writing, b"x" * 4096)
