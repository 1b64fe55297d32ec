"""Kills `audit serve` again and again, at random moments, while 16 clients append to a store in a file, and starts it
again each time.

usage: bin/check serve-kills EXECUTABLE [KILLS]

KILLS is 200 by default. Every event whose acknowledgement a client read must be in the store at its index after that
kill and each later one. Each reply must be right: the tag, the event's own entry, and the root of the count that it
states. After each kill `audit export` and `audit verify` read the store back. Only the process is killed, not the
machine: whatever the operating system has buffered is kept. The last line is 'N passed, M failed'.
"""
import os
import random
import time

from checks.parts import appenders
from checks.parts.daemons import Serving, commitment_of, events_in
from checks.parts.files import folder_of_its_own, read
from checks.parts.frames import KIND
from checks.parts.logs import History, entries_of
from checks.parts.places import KEY
from checks.parts.program import done
from checks.parts.scenes import program_of
from checks.parts.wrong import Wrong, expect, expect_true

SECTORS_A_KILL = 3000


class Store:
    """A store in a file, and the appends acknowledged so far."""

    def __init__(self, kills):
        done("format", "store", str(1000 + SECTORS_A_KILL * kills), KEY)
        self.acknowledged = {}
        self.held = 0

    def serve_and_kill(self, number):
        """Serves clients until the server is killed, and returns the clients."""
        if os.path.exists("socket"):
            os.remove("socket")
        with Serving("store", "socket", 1, ["--sessions", str(appenders.CLIENTS)]) as serving:
            clients = appenders.started(serving.socket, "kill %d" % number)
            time.sleep(0.3 * random.random())
        for client in clients:
            client.join()
        return clients

    def read(self):
        """The entries of the store, which its export has, and the events that it is verified with."""
        commitment = commitment_of("store")
        done("export", "store", "export")
        events, entries = events_in("export", KEY, commitment), entries_of(read("export"))
        expect((len(entries), len(events)), (int(commitment.split(":")[0]),) * 2, "the entries and the events")
        return entries, events

    def check(self, clients):
        """Checks that the store has all acknowledged events, and that these clients' replies are right."""
        entries, events = self.read()
        history = History()
        for entry in entries:
            history.push(entry)
        expect_true(len(entries) >= self.held, "events are lost")
        for client in clients:
            self.check_client(client, entries, history)
        for index, payload in self.acknowledged.items():
            expect(events[index], (KIND, payload), "acknowledged event %d" % index)
        self.held = len(entries)

    def check_client(self, client, entries, history):
        expect(client.fault, None, "what ended a client")
        for index, payload, count, root in client.acknowledged:
            expect_true(index not in self.acknowledged, "index %d was acknowledged twice" % index)
            expect_true(index >= self.held, "index %d is that of an earlier event" % index)
            expect(root, history.root(count), "the root of %d entries" % count)
            self.acknowledged[index] = payload
        for index, entry in client.entries:
            expect(entry, entries[index], "entry %d" % index)


def main(words):
    kills = int((program_of(words, 1) or [200])[0])
    passed = failed = 0
    with folder_of_its_own("serve-kills-"):
        store = Store(kills)
        for number in range(kills):
            try:
                store.check(store.serve_and_kill(number))
                passed += 1
            except Wrong as fault:
                failed += 1
                print("kill %d: %s" % (number, fault))
    print("%d events, %d of them acknowledged to a client that read it" % (store.held, len(store.acknowledged)))
    print("%d passed, %d failed" % (passed, failed))
    return 1 if failed else 0
