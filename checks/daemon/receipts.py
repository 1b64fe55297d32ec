"""Receipts that `audit send --placed` keeps, while it and the daemon are killed."""
import contextlib
import os
import random
import re
import signal
import time

from checks.daemon.common import OWN, Daemon, sectors_for, sources_at
from checks.parts.clients import connected, in_process
from checks.parts.files import mode_of, read
from checks.parts.frames import ENTRY_REPLY, MAX_PLACED, append_frame, entry_frame, placed_frame, reply_of
from checks.parts.logs import History, entries_of, keys_from
from checks.parts.memory import memory_of
from checks.parts.processes import forget, start
from checks.parts.program import SECONDS
from checks.parts.rooms import FIRST_KEY
from checks.parts.scenes import scene
from checks.parts.waiting import wait_until
from checks.parts.wrong import expect, expect_true
from model.chain import keystream_key
from read_export import under_keystream


class Sending:
    """`audit send` of a list at its places. One that is killed is followed by one that sends what has no answer."""

    def __init__(self, room, path, kind, payloads):
        self.room, self.path, self.kind, self.payloads = room, path, kind, payloads
        self.receipts, self.answers, self.messages = (room.path(name) for name in ("receipts", "answers", "messages"))
        open(self.answers, "wb").close()
        self.process = None

    def lines(self):
        """The whole lines that were printed: one answer each."""
        return re.findall(rb"(.*)\n", read(self.answers))

    def start(self):
        """Begins with the first line without an answer. Of an answer a part may have been printed."""
        answered = self.lines()
        os.truncate(self.answers, sum(len(line) + 1 for line in answered))
        left = self.room.path("left")
        with open(left, "wb") as file:
            file.writelines(payload + b"\n" for payload in self.payloads[len(answered):])
        with open(left, "rb") as given, open(self.answers, "ab") as out, open(self.messages, "ab") as said:
            self.process = start([self.room.executable, "send", self.path, "--text", str(self.kind), "--placed",
                                  "--from", str(len(answered)), "--retry", "100", "--receipts", self.receipts],
                                 stdin=given, stdout=out, stderr=said)

    def kill(self):
        self.process.send_signal(signal.SIGKILL)
        self.process.wait(SECONDS)
        forget(self.process)

    def expect_done(self):
        """Each line has an answer."""
        status = self.process.wait(SECONDS)
        forget(self.process)
        expect((status, len(self.lines())), (0, len(self.payloads)), "the end of `send`, and its answers")

    def acknowledged(self):
        """The indices of the events that were acknowledged, by their places."""
        words = [line.split() for line in self.lines()]
        expect({line[0] for line in words} - {b"ack", b"place"}, set(), "the answers")
        return {place: int(line[1]) for place, line in enumerate(words) if line[0] == b"ack"}

    def keys(self):
        """The keys in the file by their indices, and the commitments before them. A `send` that was killed may have
        left a part of a line."""
        keys, logs = {}, []
        for line in read(self.receipts).split(b"\n"):
            if found := re.fullmatch(rb"key (\d+) ([0-9a-f]{64})", line):
                expect_true(logs, "a key comes before its log")
                keys.setdefault(int(found[1]), set()).add(bytes.fromhex(found[2].decode()))
            elif found := re.fullmatch(rb"log (\d+):([0-9a-f]{64})", line):
                logs.append((int(found[1]), bytes.fromhex(found[2].decode())))
            else:
                expect_true(b"log 0:key 0 ".startswith(line[:6]) or line[:4] in (b"", b"log ", b"key "),
                            "the receipts have a line %r" % line)
        return keys, logs


def kill_during(sending, daemon, kills):
    """Kills the daemon, `send` or both, at random moments between the first answer and the last."""
    for kill in range(kills):
        wait_until(lambda: len(sending.lines()) >= len(sending.payloads) * kill // kills, "`send` stands still",
                   pause=0.02)
        time.sleep(random.random() * 0.02)
        victims = random.choice(([daemon], [daemon], [sending], [daemon, sending], [sending, daemon]))
        for victim in victims:
            victim.kill()
        for victim in random.sample(victims, len(victims)):
            victim.start()


def appending_others(path):
    """Appends events of another kind without end, so that indices aren't places."""
    while True:
        with contextlib.suppress(OSError), connected(path) as stream:
            while stream.sendall(append_frame(b"another")) is None and reply_of(stream):
                time.sleep(0.01)


def expect_receipts(sending, entries):
    """Each event that was acknowledged has a key, and each key opens the entry at its index to the event that has that
    place among those of its kind. Each commitment is one of the log."""
    keys, logs = sending.keys()
    own = [index for index, entry in enumerate(entries) if entry[:4] == sending.kind.to_bytes(4, "big")]
    places = {index: place for place, index in enumerate(own)}
    expect(len(own), len(sending.payloads), "the events of the list")
    for index, found in keys.items():
        expect_true(index in places, "a key of event %d, which isn't of the list" % index)
        texts = [under_keystream(key, entries[index][8:-64]) for key in found]
        expect(texts, [sending.payloads[places[index]]], "what the key of event %d opens" % index)
    for place, index in sending.acknowledged().items():
        expect((places.get(index), index in keys), (place, True), "the place of event %d, and if it has a key" % index)
    history, roots = History(), {}
    for count in range(len(entries) + 1):
        roots[count] = history.root(count)
        if count < len(entries):
            history.push(entries[count])
    expect_true(len(logs) > 1, "there is one connection alone")
    for count, root in logs:
        expect(root, roots.get(count), "the root of a log of %d events" % count)


@scene
def each_acknowledged_event_has_a_receipt(room):
    """`send`, the daemon, or both are killed, beside a client with events of another kind."""
    kills, count = (40, 2000) if room.is_long else (6, 300)
    store = room.store("store", sectors=sectors_for(100_000))
    words, (path,) = sources_at(room, OWN)
    daemon = Daemon(room, store, *words)
    payloads = [b"event %d %s" % (number, b"x" * random.choice((0, 20, 300))) for number in range(count)]
    sending = Sending(room, path, OWN, payloads)
    with in_process(appending_others, daemon.socket):
        sending.start()
        kill_during(sending, daemon, kills)
        sending.expect_done()
    daemon.stopped_well()
    expect(oct(mode_of(sending.receipts)), oct(0o600), "the mode of receipts")
    room.done("export", store, room.path("export"))
    expect([payload for kind, payload in room.events(store) if kind == OWN], payloads, "the list in the store")
    expect_receipts(sending, entries_of(read(room.path("export"))))


class ReceiptKeys:
    """The keys of the receipts of a source's events, the only ones of a log, and which of them a daemon has in memory."""

    def __init__(self, daemon, store):
        self.daemon, self.store, self.chain = daemon, store, keys_from(FIRST_KEY)
        self.keys = []

    def of_reply(self, reply):
        """The key of the next event's receipt, which a reply must have."""
        expect(reply[-32:], self.next(), "the key of receipt %d" % (len(self.keys) - 1))

    def next(self):
        self.keys.append(keystream_key(next(self.chain), OWN))
        return self.keys[-1]

    def expect_in_memory(self, wanted, what):
        self.daemon.settle()
        memory = memory_of(self.daemon.process)
        if memory is not None:
            expect_true(self.store.encode() in memory, "the memory that was searched isn't the daemon's")
            expect([index for index, key in enumerate(self.keys) if key in memory], wanted, what)


def kept_reply(path, keys, place):
    """A source whose acknowledgement waits in the daemon behind entries that it doesn't read."""
    stream = connected(path)
    stream.sendall(entry_frame(0) * 24)
    keys.daemon.settle()
    stream.sendall(placed_frame(b"kept", place, kind=OWN))
    keys.next()
    keys.expect_in_memory([place], "the key of a receipt that waits")
    return stream


@scene
def receipts_are_forgotten(room):
    """The key of a receipt is in a daemon's memory while its reply waits, and no longer: one at a time, in batches
    with questions, behind entries that a client takes late, or never."""
    words, (path,) = sources_at(room, OWN)
    store = room.store("store", sectors=sectors_for(4000))
    daemon = Daemon(room, store, *words)
    keys = ReceiptKeys(daemon, store)
    with connected(path) as stream:
        for place in range(20):
            stream.sendall(placed_frame(b"x" * (MAX_PLACED if place == 0 else place), place, kind=OWN))
            keys.of_reply(reply_of(stream))
        keys.expect_in_memory([], "the keys of receipts that were read one by one")
        stream.sendall(b"".join(placed_frame(b"many", place, kind=OWN) for place in range(20, 148)) + entry_frame(0) * 5)
        for _ in range(128):
            keys.of_reply(reply_of(stream))
        for _ in range(5):
            expect(reply_of(stream)[0], ENTRY_REPLY, "an entry")
        keys.expect_in_memory([], "the keys of receipts that were read with entries")
    with kept_reply(path, keys, 148) as stream:
        for _ in range(24):
            expect(reply_of(stream)[0], ENTRY_REPLY, "an entry")
        expect(reply_of(stream)[-32:], keys.keys[148], "the key of a receipt that waited")
        keys.expect_in_memory([], "the keys of receipts that were read late")
    kept_reply(path, keys, 149).close()
    keys.expect_in_memory([], "the keys of receipts that were never read")
    daemon.stopped_well()
