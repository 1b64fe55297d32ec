"""Machines that attach the image, and clients of their daemons."""
import collections
import concurrent.futures
import os
import random
import subprocess
import threading
import time

from checks.parts import program
from checks.parts.ceph import OSDS, state_of
from checks.parts.places import tool
from checks.parts.tools import succeeds
from checks.parts.waiting import doing, is_readable, pressure, wait_for, wait_listening, wait_while_growing
from checks.parts.wrong import Wrong, expect_true
from checks.replicated_ceph.common import CLIENTS, EARLY, PATH, acknowledged, commitment, count, good, how


class Machine:
    """A machine that may attach the image as a file, and run a daemon on it."""
    all = []

    def __init__(self, name):
        Machine.all.append(self)
        self.folder = os.path.abspath(name)
        self.mounted = os.path.join(self.folder, "mounted")
        self.socket, self.file = os.path.join(self.folder, "daemon"), os.path.join(self.mounted, "store")
        self.nbd, self.messages = os.path.join(self.folder, "nbd"), os.path.join(self.folder, "messages")
        self.processes = {}

    def run(self, name, *words, **more):
        with open(self.messages, "ab") as messages:
            self.processes[name] = subprocess.Popen(words, stdin=subprocess.DEVNULL, stderr=messages,
                                                    env=dict(os.environ, PATH=PATH),
                                                    **more)
        return self.processes[name]

    def ask_for_image(self):
        os.makedirs(self.mounted, exist_ok=True)
        if os.path.exists(self.nbd):
            os.remove(self.nbd)
        if how.qemu:
            open(self.file, "a").close()
            self.run("client", "qemu-storage-daemon", "--blockdev",
                     "driver=rbd,node-name=image,pool=%s,image=%s,cache.direct=on" % tuple(how.image.split("/")),
                     "--export", "type=fuse,id=export,node-name=image,writable=on,mountpoint=" + self.file)
        else:
            self.run("client", "nbdkit", "--foreground", "--unix", self.nbd, "python", how.plugin, "image=" + how.image)

    def attach(self):
        """Attaches the image, whoever has it: that one is fenced first. On a busy machine a command of Ceph's may take
        too long, and the fence is repeated."""
        try:
            wait_for(lambda: succeeds(tool("fence-ceph"), how.image), "the fence")
            self.ask_for_image()
            if not how.qemu:
                # The socket may be there before the lock is, so only nbdfuse's file shows that the image is attached.
                wait_listening(self.nbd, self.processes["client"])
                self.run("file", "nbdfuse", self.file, "nbd+unix:///?socket=" + self.nbd)
            wait_for(lambda: self.has_file() or not self.is_attaching(), "the file on the image")
        except Wrong as wrong:
            raise Wrong("%s\n%s" % (wrong, self.state())) from None
        expect_true(self.is_attaching(), "the image is refused: " + self.said())

    def is_attaching(self):
        return all(process.poll() is None for process in self.processes.values())

    def has_file(self):
        return os.path.exists(self.file) and os.stat(self.file).st_size > 0

    def said(self):
        with open(self.messages, errors="replace") as messages:
            return messages.read()

    def state(self):
        """What its processes do and said, and what the cluster says, for a check that gives up."""
        found = ["%s: %s" % (name, doing(process)) for name, process in self.processes.items()]
        return "\n".join([pressure(), *found, self.said(), state_of(how.image)])

    def format(self):
        """Makes a store of the image, under another key, and nothing is acknowledged yet."""
        with open("key", "w") as key:
            key.write(os.urandom(32).hex() + "\n")
        good("format", "--in-place", "--erase", self.file, str(how.sectors), "key")
        acknowledged.clear()

    def start(self):
        """Starts the daemon, and returns how many events it has."""
        daemon = self.run("daemon", program.PATH, "daemon", self.file, self.socket, stdout=subprocess.PIPE)
        if not is_readable(daemon.stdout):
            raise Wrong("the daemon doesn't open its log\n" + self.state())
        ready = daemon.stdout.readline().split()
        expect_true(ready[:1] == [b"ready"], "the daemon doesn't start: " + self.said())
        return int(ready[1])

    def end_daemon(self):
        daemon = self.processes.pop("daemon")
        daemon.kill()
        daemon.wait()

    def unmount(self, *words):
        subprocess.run(["fusermount3", "-u", *words, self.file if how.qemu else self.mounted],
                       stderr=subprocess.DEVNULL)

    def lose(self):
        for process in self.processes.values():
            process.kill()
            process.wait()
        self.processes = {}
        self.unmount("-z")


class Client(threading.Thread):
    """`audit send`, and what is acknowledged to it. The loss of its daemon ends it."""
    numbers = 0

    def __init__(self, machine, events):
        super().__init__()
        Client.numbers += 1
        self.lines = ["client %d, line %d" % (Client.numbers, number) for number in range(events)]
        self.acks, self.socket = [], machine.socket
        self.start()

    def run(self):
        send = subprocess.Popen([program.PATH, "send", self.socket, "--text", "1", "--window", "8"],
                                stdin=subprocess.PIPE,
                                stdout=subprocess.PIPE, stderr=subprocess.DEVNULL)
        threading.Thread(target=self.feed, args=(send.stdin,)).start()
        for line, answer in zip(self.lines, send.stdout):
            words = answer.split()
            if words[0] != b"ack":
                break
            acknowledged[int(words[1])] = line
            self.acks.append((time.monotonic(), int(words[2])))
        send.wait()

    def feed(self, pipe):
        try:
            pipe.write("".join(line + "\n" for line in self.lines).encode())
            pipe.close()
        except BrokenPipeError:
            pass


class Clients:
    def __init__(self, machine, events):
        self.all = [Client(machine, events) for _ in range(CLIENTS)]
        self.wanted = CLIENTS * events

    def acks(self):
        return sorted(ack for client in self.all for ack in client.acks)

    def wait(self):
        """Waits for a random number of further acknowledgements."""
        moment = len(self.acks()) + random.randint(1, EARLY)
        self.wait_until(lambda: len(self.acks()) >= moment, "acknowledgement %d" % moment)

    def wait_until(self, holds, what):
        wait_while_growing(holds, lambda: len(self.acks()), what)

    def end(self):
        """The greatest count acknowledged, and the longest time without an acknowledgement."""
        self.wait_until(lambda: not any(client.is_alive() for client in self.all), "the end of a client")
        times = [when for when, _ in self.acks()]
        return max(count for _, count in self.acks()), max(after - before for before, after in zip(times, times[1:]))

    def end_with_all(self):
        held, pause = self.end()
        expect_true(len(self.acks()) == self.wanted,
                    "of %d events %d are acknowledged" % (self.wanted, len(self.acks())))
        return held, pause


def check_payloads(file):
    """Each acknowledged event is at its index, and none is there twice. No daemon runs."""
    newest = commitment(good("show", file))
    good("export", file, "export")
    held = good("verify", "export", "key", newest, "--text").splitlines()
    for index, line in acknowledged.items():
        expect_true(index < len(held) and held[index] == line, "event %d isn't what was acknowledged" % index)
    twice = [line for line, times in collections.Counter(held).items() if times > 1]
    expect_true(not twice, "an event is there twice: %s" % twice[:1])


def counts_of_replicas(cluster):
    """Kills all OSDs. Returns how many events each has by itself."""
    for number in range(OSDS):
        cluster.kill(number)
    with concurrent.futures.ThreadPoolExecutor() as pool:
        files = pool.map(lambda number: cluster.replica(number, "store", how.sectors * 512), range(OSDS))
        return [count(good("show", "--read-only", file)) for file in files]
