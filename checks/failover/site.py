"""Two machines, their device and etcd, and sources."""
import collections
import contextlib
import os
import subprocess
import threading
import time

from checks.failover.devices import size
from checks.failover.etcd import MEMBERS, Member, make_certificates
from checks.failover.machines import Machine, audit
from checks.failover.placed import placed_sources
from checks.parts import program
from checks.parts.daemons import events_in
from checks.parts.tools import call
from checks.parts.waiting import SECONDS, wait_for
from checks.parts.wrong import expect_true

# Sizes of a store for what the sources send without --long and with it, at their pace in seconds a line.
SIZES, PACE = [16384, 65536], 0.25
SOURCES = 2


class Source(threading.Thread):
    """Sends lines to whichever machine answers, one after the other. It notes which are acknowledged, when and
    where."""

    def __init__(self, number, machines):
        super().__init__(daemon=True)
        self.number, self.machines, self.is_over = number, machines, threading.Event()
        self.held, self.acks = {}, []
        self.start()

    def run(self):
        while not self.is_over.is_set():
            for machine in self.machines:
                self.send(machine)
            time.sleep(0.05)

    def send(self, machine):
        """Sends what isn't acknowledged yet, until the connection ends."""
        first = len(self.acks)
        send = subprocess.Popen([program.PATH, "send", machine.socket, "--text", "1", "--window", "8", "--timeout",
                                 "3"],
                                stdin=subprocess.PIPE, stdout=subprocess.PIPE, stderr=subprocess.DEVNULL)
        threading.Thread(target=self.feed, args=(send, first), daemon=True).start()
        for answer in send.stdout:
            words = answer.split()
            if words[0] != b"ack":
                break
            self.held[int(words[1])] = self.line(len(self.acks))
            self.acks.append((time.monotonic(), machine))
        send.wait()

    def feed(self, send, number):
        with contextlib.suppress(OSError):
            while send.poll() is None and not self.is_over.is_set():
                send.stdin.write(self.line(number).encode() + b"\n")
                send.stdin.flush()
                number += 1
                time.sleep(PACE)
        with contextlib.suppress(OSError):
            send.stdin.close()

    def line(self, number):
        return "source %d, line %d" % (self.number, number)

    def end(self):
        self.is_over.set()
        self.join(SECONDS)


class Site:
    """Two machines, their device and etcd, and sources."""

    def __init__(self, make_device, is_long):
        self.is_long, size.sectors = is_long, SIZES[is_long]
        make_certificates()
        for number in range(MEMBERS):
            Member(number)
        for member in Member.all:
            member.start()
        self.device, self.machines, self.sources, self.placed = make_device(), [], [], []
        self.times = collections.defaultdict(list)
        self.machines = [Machine(name, self.device) for name in ("first", "second")]

    def begin(self):
        with open("key", "w") as key:
            key.write("%064d\n" % 7)
        maker = self.machines[0]
        call(maker.script, "take")
        audit("format", "--in-place", maker.path("mounted/store"), str(size.sectors), "key")
        call(maker.script, "drop")
        for machine in self.machines:
            machine.start()
        self.sources = [Source(number, self.machines) for number in range(SOURCES)]
        self.placed = placed_sources(os.path.abspath("address.of.store"), [machine.folder for machine in self.machines])
        self.serving()

    def serving(self):
        """The machine at which each source is acknowledged, and the other one, once that waits."""
        begun = time.monotonic()

        def place():
            newest = [source.acks[-1] if source.acks else (0, None) for source in self.sources]
            places = {machine for _, machine in newest}
            return places.pop() if len(places) == 1 and min(when for when, _ in newest) > begun else None
        wait_for(lambda: place() is not None, "an acknowledgement")
        holder = place()
        other = next(machine for machine in self.machines if machine is not holder)
        wait_for(other.is_waiting, "the other machine")
        return holder, other

    def count(self):
        """How many events are acknowledged."""
        return sum(len(source.acks) for source in self.sources)

    def first_ack(self, machine, since):
        """When a source was first acknowledged at a machine, since then."""
        def moments():
            return [when for source in self.sources for when,
                    where in source.acks[-5000:] if where is machine and when > since]
        wait_for(moments, "an acknowledgement of the other machine")
        return min(moments())

    def takes_over(self, what, holder, other, since):
        """The other machine serves. The time since the loss is noted."""
        self.times[what].append(self.first_ack(other, since) - since)
        if self.is_long:
            print("%s: the first acknowledgement after %.1f s" % (what, self.times[what][-1]), flush=True)

    def check_log(self):
        """Every acknowledged event is at its index, and the list of each source with places is there."""
        for source in self.placed:
            source.finish()
        for source in self.sources:
            source.end()
        for machine in self.machines:
            machine.lose()
        call(self.machines[0].script, "take")
        store = self.machines[0].path("mounted/store")
        newest = audit("show", store).split()[1:3]
        audit("export", store, "export")
        held = events_in("export", "key", ":".join(newest))
        for source in self.sources:
            for index, line in source.held.items():
                expect_true(held[index:index + 1] == [(1, line.encode())],
                            "event %d isn't what was acknowledged" % index)
            expect_true(len(set(source.held.values())) == len(source.held) == len(source.acks),
                        "a line is acknowledged twice")
        for source in self.placed:
            source.expect_whole(held)
        call(self.machines[0].script, "drop")

    def end(self):
        for source in self.sources:
            source.is_over.set()
        for source in self.placed:
            source.end()
        for machine in self.machines:
            machine.lose()
        self.device.end()
        Member.end_all()
