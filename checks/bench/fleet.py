"""Measures many stores on one machine: daemons, a look of `fleet` at all of them, their metrics, and a rotation of
each.

usage: bin/bench fleet EXECUTABLE [STORES]

STORES is 200 unless it is given. Prints a line for each figure, and fails with status 1 if a store isn't as it should
be.
"""
import concurrent.futures
import os
import re
import subprocess
import time

from checks.parts import processes, program
from checks.parts.daemons import processor_seconds, shared_memory_of
from checks.parts.files import folder_of_its_own, read_text
from checks.parts.places import tool
from checks.parts.processes import end_all
from checks.parts.program import SECONDS
from checks.parts.repositories import repository
from checks.parts.scenes import program_of
from checks.parts.tools import needs
from checks.parts.wrong import expect, expect_true

SECTORS = 2048
# Each event is a sector; two are headers.
EVENTS = 100
# How many commands run at a time.
AT_ONCE = 4


def audit(*words, data=b""):
    status, out, err = program.whole(*words, data=data)
    expect_true(status == 0, "%s: %r" % (" ".join(words), err))
    return out.decode()


class Store:
    def __init__(self, number):
        self.name = "store%d" % number
        self.file, self.writers, self.readers = (self.name + end for end in (".store", ".writers", ".readers"))
        self.keys = 0
        audit("format", self.file, str(SECTORS), self.key())

    def key(self):
        """A first key that was never used."""
        self.keys += 1
        with open(self.name + ".key", "w") as file:
            file.write(os.urandom(32).hex() + "\n")
        return self.name + ".key"

    def start(self):
        self.daemon = processes.start([program.PATH, "daemon", self.file, self.writers, "--reader", self.readers],
                                      stdout=subprocess.PIPE, stderr=subprocess.DEVNULL)

    def wait(self):
        expect_true(self.daemon.stdout.readline().startswith(b"ready "), "the daemon of %s doesn't start" % self.name)

    def send(self):
        lines = b"".join(b"event %d of %s with the length of a line of syslog, or nearly so\n"
                         % (number, self.name.encode())
                         for number in range(EVENTS))
        expect_true(audit("send", self.writers, "--text", "1", data=lines).count("ack ") == EVENTS,
                    "an event isn't acknowledged")

    def state(self):
        """How many events the log has, and how many sectors are free, as its daemon answers its readers."""
        words = audit("ask", self.readers, "state", "--timeout", "10").split()
        return int(words[1]), int(words[words.index("free") + 1])

    def rotate(self):
        """As docs/operations.md says."""
        audit("stop", self.writers)
        self.daemon.communicate()
        audit("rotate", self.file, self.name + ".next", str(SECTORS), self.key())
        os.rename(self.file, self.name + ".closed")
        os.rename(self.name + ".next", self.file)
        self.start()
        self.wait()

    def memory(self):
        return shared_memory_of(self.daemon)

    def seconds(self):
        return processor_seconds(self.daemon)


def timed(what, call):
    begun = time.time()
    found = call()
    print("%-60s %8.2f s" % (what, time.time() - begun), flush=True)
    return found


def on_all(stores, call):
    with concurrent.futures.ThreadPoolExecutor(AT_ONCE) as pool:
        return list(pool.map(call, stores))


def look(stores, states, wanted):
    """One look of `fleet` at each store; each has to be found as wanted."""
    done = subprocess.run([tool("fleet"), program.PATH, "list", states], capture_output=True, timeout=SECONDS)
    rows = [line.split() for line in done.stdout.decode().splitlines()[1:]]
    expect_true([row[0] for row in rows] == [store.name for store in stores], "fleet lists %d stores" % len(rows))
    expect_true(done.returncode == 0 and all(row[3] == wanted for row in rows),
                "fleet finds %r" % sorted({row[3] for row in rows}))


def collect(stores):
    """A run of `metrics` for all stores: what it writes of each is its number of events and of free sectors."""
    done = subprocess.run([tool("metrics"), "fleet.prom", *("%s=%s" % (store.name, store.file) for store in stores)],
                          env=dict(os.environ, AUDIT=program.PATH), capture_output=True, timeout=SECONDS)
    expect((done.returncode, done.stderr), (0, b""), "a run of metrics")
    for metric, wanted in ("events", 2 * EVENTS), ("free_sectors", SECTORS - 2 - 2 * EVENTS):
        found = re.findall(r'^audit_store_%s\{store="(.*)"\} (\d+)$' % metric, read_text("fleet.prom"), re.MULTILINE)
        expect(found, [(store.name, str(wanted)) for store in stores], "the metric " + metric)


def begin(stores):
    """Starts all daemons."""
    for store in stores:
        store.start()
    for store in stores:
        store.wait()


def watch(stores):
    """Looks at all daemons while their logs grow."""
    with open("list", "w") as file:
        file.writelines("%s %s\n" % (store.name, os.path.abspath(store.readers)) for store in stores)
    timed("%d events to each, %d clients at a time" % (EVENTS, AT_ONCE), lambda: on_all(stores, Store.send))
    timed("a look of fleet at each", lambda: look(stores, "states", "began"))
    on_all(stores, Store.send)
    timed("a look after they grew", lambda: look(stores, "states", "grew"))
    states = timed("the state of each, by ask, %d at a time" % AT_ONCE, lambda: on_all(stores, Store.state))
    expect(set(states), {(2 * EVENTS, SECTORS - 2 - 2 * EVENTS)}, "the states")
    timed("a run of metrics for all", lambda: collect(stores))


def rest(stores):
    """What the daemons take while nothing comes."""
    memory = [store.memory() for store in stores]
    print("memory of a daemon: %.2f MiB, of the largest %.2f MiB"
          % (sum(memory) / len(stores) / 1024, max(memory) / 1024))
    before = sum(store.seconds() for store in stores)
    time.sleep(5)
    print("processor time of all daemons while nothing comes: %.1f %%"
          % ((sum(store.seconds() for store in stores) - before) * 20))


def measure(count):
    stores = timed("%d stores of %d sectors are made" % (count, SECTORS), lambda: on_all(range(count), Store))
    repository("states", "w")
    repository("states-after", "w")
    timed("their daemons start", lambda: begin(stores))
    watch(stores)
    rest(stores)
    timed("each is stopped, rotated and started, %d at a time" % AT_ONCE, lambda: on_all(stores, Store.rotate))
    timed("a look at the new logs", lambda: look(stores, "states-after", "began"))
    for store in stores:
        audit("stop", store.writers)
        store.daemon.communicate()


def main(words):
    count = int((program_of(words, 1) or [200])[0])
    needs("git")
    with folder_of_its_own("fleet-"):
        try:
            measure(count)
        finally:
            end_all()
    return 0
