"""Measures a store on replicas beside one in a file: events a second of 16 clients with one append in flight each and
with 16, and of `audit send` with one and 16 ahead; then how long another machine takes to attach the device, and its
daemon to open a log, by the number of events.

usage: bin/bench replicas EXECUTABLE [TURNS [EVENTS ..]]

TURNS is 3 unless it is given, of which the medians are printed; 0 measures no rates. EVENTS, in rising order, are those
of the logs that are opened: 10000, 100000 and 1000000. The replicas are those of `bin/check replicated-ceph`, attached
by nbdkit and by qemu, and of `bin/check replicated`, all on this machine; what they need is needed here.
"""
import collections
import itertools
import os
import signal
import statistics
import subprocess
import time

from checks import replicated
from checks.bench.daemon import EVENT, SECONDS, appends_a_second
from checks.parts import ceph, program
from checks.parts.ceph import POOL
from checks.parts.daemons import Daemon
from checks.parts.files import folder_of_its_own, read
from checks.parts.places import KEY
from checks.parts.processes import end_all
from checks.parts.program import done
from checks.parts.scenes import program_of
from checks.parts.tools import call, needs, succeeds
from checks.parts.wrong import Wrong, expect
from checks.replicated_ceph import expect_complete
from checks.replicated_ceph.common import how
from checks.replicated_ceph.machines import Machine

# A turn takes as many sectors as there are events, and `send` has more lines than it can send.
OF_FILE, OF_REPLICAS, LINES = 2_000_000, 250_000, 600_000
OPENED = 10_000, 100_000, 1_000_000
# Sectors of a store beside those of its small events.
ROOM = 1000


class File:
    name = "file"

    def __init__(self, sectors):
        self.sectors = sectors
        with open("file", "wb") as file:
            file.truncate(sectors * 512)

    def attach(self):
        return "file"

    def state(self):
        return ""

    def lose(self):
        """Its pages stay in memory."""


class Image:
    """An image of Ceph. Whoever attaches it fences the last one first."""

    def __init__(self, name, is_qemu, sectors):
        self.name, self.is_qemu, self.sectors, self.machine = "Ceph, " + name, is_qemu, sectors, None
        self.image = "%s/image-%d" % (POOL, sectors)
        if not succeeds("rbd", "info", self.image):
            call("rbd", "create", "--size", "%dK" % (sectors // 2), "--image-feature", "exclusive-lock", self.image)

    def attach(self):
        how.qemu, how.image = self.is_qemu, self.image
        self.machine = Machine("with-" + ("qemu" if self.is_qemu else "nbdkit"))
        self.machine.attach()
        return self.machine.file

    def state(self):
        return self.machine.state()

    def lose(self):
        self.machine.lose()


class Quorum:
    name = "NBD quorum"

    def __init__(self, sectors):
        self.sectors, self.machine = sectors, None
        self.replicas = [replicated.Replica(number, sectors) for number in range(3)]

    def attach(self):
        self.machine = replicated.Machine("quorum", self.replicas)
        self.machine.mount()
        return self.machine.file

    def state(self):
        return ""

    def lose(self):
        self.machine.lose()


def devices(of_file, of_replicas):
    return [File(of_file), Image("nbdkit", False, of_replicas), Image("qemu", True, of_replicas), Quorum(of_replicas)]


def served(device, file):
    """A daemon on a device, once it has opened its log."""
    try:
        return Daemon(file, "socket", stderr=subprocess.PIPE)
    except Wrong as wrong:
        raise Wrong("%s: %s\n%s" % (device.name, wrong, device.state())) from None


def write_lines(count):
    with open("lines", "wb") as file:
        file.write((b"event 7 %s\n" % EVENT.hex().encode()) * count)


def sent_a_second(path, window):
    """Events that `send` has acknowledged until it is killed, a second."""
    with open("lines", "rb") as given, open("answers", "wb") as answers:
        send = subprocess.Popen([program.PATH, "send", path, "--window", str(window)], stdin=given, stdout=answers)
        time.sleep(SECONDS)
        send.kill()
        expect(send.wait(), -signal.SIGKILL, "the end of `send`, which has more lines than it can send,")
    return read("answers").count(b"\n") / SECONDS


def measure_turn(device, rates):
    """The rates of a new store."""
    file = device.attach()
    done("format", "--in-place", "--erase", file, str(device.sectors), KEY)
    with served(device, file) as daemon:
        for in_flight in 1, 16:
            rates[device.name, "16 clients with %d in flight" % in_flight].append(
                appends_a_second(daemon.socket, in_flight))
        for window in 1, 16:
            rates[device.name, "send, window %d" % window].append(sent_a_second(daemon.socket, window))
        daemon.stop()
    device.lose()


def measure_openings(device, counts):
    """How long it takes to attach a device that another machine has left, and to open its log, as the log grows."""
    file, held = device.attach(), 0
    # A store of a million events takes minutes to format on replicas that are busy.
    done("format", "--in-place", "--erase", file, str(device.sectors), KEY, seconds=1800)
    for count in counts:
        with served(device, file) as daemon, open("lines", "rb") as given:
            send = [program.PATH, "send", daemon.socket, "--window", "1024"]
            lines = b"".join(itertools.islice(given, count - held))
            subprocess.run(send, input=lines, stdout=subprocess.DEVNULL, check=True)
            daemon.stop()
        device.lose()
        begun = time.monotonic()
        file, held = device.attach(), count
        attached = time.monotonic()
        with served(device, file) as daemon:
            opened = time.monotonic()
            print("%s: attached after %.1f s, a log of %d events opened after %.2f s"
                  % (device.name, attached - begun, daemon.count(), opened - attached), flush=True)
            daemon.stop()
    device.lose()


def measure_rates(turns):
    found = devices(OF_FILE, OF_REPLICAS)
    rates = collections.defaultdict(list)
    for _ in range(turns):
        for device in found:
            measure_turn(device, rates)
    for (name, what), each in rates.items():
        print("%s, %s: %.0f events a second (%.0f to %.0f)"
              % (name, what, statistics.median(each), min(each), max(each)), flush=True)
    for replica in found[-1].replicas:
        replica.kill()


def measure(turns, counts):
    write_lines(max(LINES, *counts))
    if turns:
        measure_rates(turns)
    found = devices(max(counts) + ROOM, max(counts) + ROOM)
    for device in found:
        measure_openings(device, counts)
    for replica in found[-1].replicas:
        replica.kill()


def main(words):
    turns, *counts = [int(word) for word in program_of(words, 9)] or [3]
    for how.qemu in True, False:
        expect_complete()
    needs(*replicated.TOOLS)
    with folder_of_its_own("bench-replicas-") as folder:
        cluster = ceph.Cluster(os.path.join(folder, "ceph"))
        try:
            cluster.begin()
            measure(turns, counts or OPENED)
        except Wrong as wrong:
            print("replicas: %s" % wrong)
            return 1
        finally:
            end_all()
            for machine in Machine.all:
                machine.lose()
            cluster.end()
            subprocess.run(["fusermount3", "-u", "-z", "quorum/mounted"], stderr=subprocess.DEVNULL)
    return 0
