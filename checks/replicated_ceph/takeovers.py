"""Machines that take the image from each other."""
import os
import signal
import statistics
import time

from checks.parts.waiting import SECONDS
from checks.parts.wrong import Wrong, expect_true
from checks.replicated_ceph.common import (
    FEW, FLOOD, MANY, MOMENT, OF_A_STORE, acknowledged, audit, commitment, good, say)
from checks.replicated_ceph.machines import Clients, Machine, check_payloads
from checks.replicated_ceph.scenes import check_blocklist


class Takeover:
    """Another machine takes the image from the first. Which processes of the first hang, and whether clients append
    there."""
    KINDS = [("everything", ["daemon", "file", "client"], True), ("nothing", [], True),
             ("nothing (and no client appended)", [], False),
             ("the client of the image", ["client"], True), ("the daemon", ["daemon"], True)]

    def __init__(self, first, number):
        self.first, self.second = first, Machine("first" if first.folder.endswith("second") else "second")
        self.what, hung, self.is_busy = self.KINDS[number % len(self.KINDS)]
        self.floods = self.is_flooded(number)
        self.clients, self.hung = None, [first.processes[name] for name in hung if name in first.processes]
        self.known = commitment(good("ask", first.socket, "commitment"))

    @classmethod
    def is_flooded(cls, number):
        """Whether clients append until the fence stops them."""
        _, hung, is_busy = cls.KINDS[number % len(cls.KINDS)]
        return is_busy and not hung

    def play(self):
        before = self.interrupt()
        lost = time.monotonic()
        self.second.attach()
        opened = self.second.start()
        seconds = time.monotonic() - lost
        expect_true(opened >= before, "of %d acknowledged events the successor opens %d" % (before, opened))
        Clients(self.second, FEW).end_with_all()
        if not self.is_busy:
            self.ask_fenced()
        for process in self.hung:
            process.send_signal(signal.SIGCONT)
        # One that was idle notices at the next event, which isn't acknowledged.
        _, out, _ = audit("send", self.first.socket, "--text", "1", data=b"too late\n")
        expect_true("ack" not in out, "a fenced daemon acknowledged a new event")
        status = self.first.processes["daemon"].wait(SECONDS)
        expect_true((status, "audit: 11 Device\n" in self.first.said()) == (3, True),
                    "a fenced daemon ended with status %d" % status)
        self.end_clients(opened)
        self.first.lose()
        os.remove(self.first.messages)
        return seconds

    def interrupt(self):
        """Stops what hangs, at a random moment. Returns how many events were acknowledged by then."""
        if not self.is_busy:
            return int(self.known.split(":")[0])
        self.clients = Clients(self.first, FLOOD if self.floods else MANY)
        self.clients.wait()
        for process in self.hung:
            process.send_signal(signal.SIGSTOP)
        time.sleep(MOMENT)
        return max(held for _, held in self.clients.acks())

    def ask_fenced(self):
        """A fenced daemon's answer is old, and true: the successor's log extends it."""
        old, new = (commitment(good("ask", machine.socket, "commitment")) for machine in (self.first, self.second))
        expect_true(old == self.known, "a fenced daemon's commitment has changed")
        good("ask", self.second.socket, "increment", old.split(":")[0], new.split(":")[0], "proof")
        expect_true(good("check", "proof", old, new) == "accepted\n",
                    "a fenced daemon's past isn't that of its successor")

    def end_clients(self, opened):
        """What the fenced daemon acknowledged was on the replicas before the fence."""
        if self.clients is not None:
            self.clients.end()
            expect_true(all(held <= opened for _, held in self.clients.acks()),
                        "a fenced daemon acknowledged what its successor doesn't have")


def take_over(cluster, machine, takeovers):
    """Machines take over in turn, and each ten have a store. Returns the last machine, which runs the daemon."""
    times, events = [], 0
    for number in range(takeovers):
        takeover = Takeover(machine, number)
        try:
            times.append(takeover.play())
        except Wrong as wrong:
            raise Wrong("a machine of which %s hung: %s" % (takeover.what, wrong)) from None
        machine = takeover.second
        if len(times) % OF_A_STORE == 0 or len(times) == takeovers:
            good("stop", machine.socket)
            check_payloads(machine.file)
            events += len(acknowledged)
            say("%d takeovers, %.1f to %.1f s until the successor served, half within %.1f s: each of %d acknowledged "
                "events is at its index" % (len(times), min(times), max(times), statistics.median(times), events))
            if len(times) < takeovers:
                machine.format()
            machine.start()
    if times:
        check_blocklist(cluster)
    return machine
