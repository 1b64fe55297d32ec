"""Sources that place their appends, and go on after whatever they lose."""
import multiprocessing
import os
import random
import re
import threading
import time

from checks.parts.clients import connected_soon
from checks.parts.files import read
from checks.parts.frames import PLACE_REPLY, PLACED_REPLY, place_frame, placed_frame, read_frame
from checks.parts.logs import keys_from
from checks.parts.program import SECONDS
from checks.parts.rooms import FIRST_KEY
from checks.parts.waiting import wait_until
from checks.parts.wrong import Wrong, expect, expect_true, told
from model.chain import keystream_key

# How many events are sent ahead of their answers, and the chance that a connection is dropped after one.
AHEAD, DROPPED = 64, 0.002


class PlacedSource(threading.Thread):
    """Sends its list, and again whatever it isn't sure of, at the place that it had."""

    def __init__(self, path, kind, payloads):
        super().__init__(daemon=True)
        self.path, self.kind, self.payloads = path, kind, payloads
        self.stored, self.receipts, self.fault, self.keep = 0, {}, None, lambda line: None

    def run(self):
        try:
            while self.stored < len(self.payloads):
                self.connect()
        except Exception as fault:
            self.fault = told(fault)

    def connect(self):
        """One connection, up to its loss or the end of the list."""
        try:
            with connected_soon(self.path) as stream:
                stream.sendall(place_frame(self.kind))
                self.stored = self.number_in(read_frame(stream))
                self.keep(b"number %d\n" % self.stored)
                self.send(stream)
        except (EOFError, OSError):
            time.sleep(0.002)

    def number_in(self, reply):
        expect((reply[0], len(reply)), (PLACE_REPLY, 21), "the reply to a question for a place")
        return int.from_bytes(reply[5:13], "big")

    def send(self, stream):
        sent = answered = self.stored
        while answered < len(self.payloads) and random.random() >= DROPPED:
            last = min(len(self.payloads), answered + AHEAD)
            stream.sendall(b"".join(placed_frame(self.payloads[place], place, place, self.kind)
                                    for place in range(sent, last)))
            sent = last
            self.answered(answered, read_frame(stream))
            answered += 1

    def answered(self, place, reply):
        """An event is stored if it is acknowledged, or if the log has more of its kind than its place."""
        expect(reply[1:5], place.to_bytes(4, "big"), "the tag of a reply")
        if reply[0] == PLACED_REPLY:
            expect(len(reply), 85, "the length of an acknowledgement")
            self.receipts[place] = int.from_bytes(reply[5:13], "big"), reply[-32:]
            self.keep(b"place %d %d %s\n" % (place, self.receipts[place][0], reply[-32:].hex().encode()))
        else:
            expect_true(self.number_in(reply) > place, "place %d isn't that of the next event" % place)
            self.keep(b"place %d stored\n" % place)
        self.stored = place + 1

    def expect_done(self):
        self.join(10 * SECONDS)
        if self.fault or self.is_alive():
            raise Wrong("a source of %d events ends after %d: %s" % (len(self.payloads), self.stored, self.fault))

    def expect_whole(self, held):
        """The list is there once and in order, and each receipt has the index of its event and the key of its entry."""
        own = [payload for kind, payload in held if kind == self.kind]
        expect((len(own), own == self.payloads), (len(self.payloads), True), "the list of kind %d" % self.kind)
        keys = [key for key, _ in zip(keys_from(FIRST_KEY), held)]
        expect_true(self.receipts, "nothing was acknowledged")
        for place, (index, key) in self.receipts.items():
            expect(held[index], (self.kind, self.payloads[place]), "the event of a receipt")
            expect(key, keystream_key(keys[index], self.kind), "the key of a receipt")


class SourceProcess:
    """The same as a process, which can be killed. The next one asks for the place to go on at, and knows nothing else
    of its list. What they were answered is in a file."""

    def __init__(self, path, kind, payloads, kept):
        self.path, self.kind, self.payloads, self.kept, self.process = path, kind, payloads, kept, None
        open(kept, "wb").close()

    def start(self):
        self.process = multiprocessing.get_context("fork").Process(target=self.play, daemon=True)
        self.process.start()

    def play(self):
        """What the process does: it sends the list, and keeps each answer before it reads the next one."""
        with open(self.kept, "ab", buffering=0) as file:
            source = PlacedSource(self.path, self.kind, self.payloads)
            source.keep = file.write
            source.run()
            file.write(b"fault %s\n" % source.fault.encode() if source.fault else b"done\n")

    def kill(self):
        self.process.kill()
        self.process.join()

    @property
    def stored(self):
        """How many events are known to be stored."""
        tail = self.tail()
        expect_true(b"\nfault " not in tail, "a source ends early: %r" % tail[-200:])
        known = re.findall(rb"^(number|place) (\d+)\b.*\n", tail, re.MULTILINE)
        return int(known[-1][1]) + (known[-1][0] == b"place") if known else 0

    def tail(self):
        """The newest answers."""
        with open(self.kept, "rb") as file:
            file.seek(max(0, os.path.getsize(self.kept) - 4096))
            return file.read()

    def expect_done(self):
        wait_until(lambda: re.search(rb"^(done|fault .*)$", self.tail(), re.MULTILINE), "a source stands still",
                   10 * SECONDS, 0.02)
        expect(self.tail().splitlines()[-1], b"done", "the end of a source of %d events" % len(self.payloads))
        self.process.join(SECONDS)

    def expect_whole(self, held):
        """As of a `PlacedSource`."""
        source = PlacedSource(self.path, self.kind, self.payloads)
        for place, index, key in re.findall(rb"^place (\d+) (\d+) ([0-9a-f]{64})$", read(self.kept), re.MULTILINE):
            source.receipts[int(place)] = int(index), bytes.fromhex(key.decode())
        source.expect_whole(held)
