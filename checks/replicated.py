"""A store on three replicas: NBD servers behind a quorum of two, with a daemon and clients over it. Servers are killed
at random moments and brought back; then the machine of the daemon is lost, and another one takes the store over.

usage: bin/check replicated EXECUTABLE [KILLS]

KILLS is 20 by default. It needs nbdkit, qemu-nbd, nbdfuse and fusermount3 (Debian's nbdkit, qemu-utils, libnbd-bin and
fuse3), and FUSE.

What it shows, and fails if it isn't so:
- while a server is away, the daemon acknowledges on, and both others hold every acknowledged event; the one that was
  killed holds an older good store, so it is copied from another before it counts again;
- while one machine has the replicas, another can't: each server takes one connection. The lock on the store's file
  doesn't reach across machines, so something like this has to;
- a second machine, by the majority of the replicas alone, opens a store with every acknowledged event.
"""
import os
import random
import shutil
import socket
import subprocess
import threading

from checks.parts import program
from checks.parts.files import folder_of_its_own
from checks.parts.processes import end_all, start
from checks.parts.quorums import quorum_of
from checks.parts.scenes import program_of
from checks.parts.tools import needs
from checks.parts.waiting import is_readable, wait_for, wait_listening, wait_while_growing
from checks.parts.wrong import expect_true

TOOLS = ["nbdkit", "qemu-nbd", "nbdfuse", "fusermount3"]
SECTORS = 16384
CLIENTS = 3
EVENTS = 150


def audit(*words):
    status, out, err = program.whole(*words)
    return status, out.decode(), err.decode()


class Replica:
    """An NBD server of one image, which takes one connection at a time."""

    def __init__(self, number, sectors=SECTORS):
        self.image, self.socket = "replica%d.image" % number, os.path.abspath("replica%d.socket" % number)
        with open(self.image, "wb") as image:
            image.truncate(sectors * 512)
        self.start()

    def start(self):
        if os.path.exists(self.socket):
            os.remove(self.socket)
        self.server = start(["nbdkit", "--foreground", "--unix", self.socket, "--filter=limit", "file",
                             os.path.abspath(self.image), "limit=1"], stderr=subprocess.DEVNULL)
        wait_listening(self.socket, self.server)

    def kill(self):
        self.server.kill()
        self.server.wait()

    def count(self):
        """How many events its image holds; opening it read-only writes nothing."""
        shutil.copy(self.image, "looked")
        status, out, err = audit("show", "--read-only", "looked")
        expect_true(status == 0, "%s isn't a good store: %s" % (self.image, err))
        return int(next(line for line in out.splitlines() if line.startswith("commit ")).split()[1])


class Machine:
    """A machine that has the replicas as one file: `qemu-nbd` asks all three, and two have to agree."""

    def __init__(self, name, replicas):
        self.folder = os.path.abspath(name)
        os.makedirs(self.folder + "/mounted", exist_ok=True)
        self.options = quorum_of(replica.socket for replica in replicas)
        self.socket, self.file = self.folder + "/quorum", self.folder + "/mounted/store"
        self.processes = []
        self.ask_for_replicas()

    def ask_for_replicas(self):
        if os.path.exists(self.socket):
            os.remove(self.socket)
        self.processes = [start(["qemu-nbd", "--persistent", "--socket", self.socket, "--image-opts", self.options],
                                stdout=subprocess.DEVNULL, stderr=subprocess.DEVNULL)]

    def has_replicas(self):
        """Whether its quorum answers. A server that another machine had may take a moment to notice that it is gone."""
        if self.processes[0].poll() is not None:
            self.ask_for_replicas()
        with socket.socket(socket.AF_UNIX) as probe:
            return probe.connect_ex(self.socket) == 0

    def mount(self):
        wait_for(self.has_replicas, "the quorum")
        self.processes.append(start(["nbdfuse", self.file, "nbd+unix:///?socket=" + self.socket]))
        wait_for(lambda: os.path.exists(self.file) or self.has_ended(), "the file on the quorum")
        expect_true(not self.has_ended(), "the file on the quorum is refused")

    def has_ended(self):
        return any(process.poll() is not None for process in self.processes)

    def is_refused(self):
        """Whether it can't have the replicas."""
        try:
            return self.processes[0].wait(5) != 0
        except subprocess.TimeoutExpired:
            return False

    def daemon(self):
        daemon = start([program.PATH, "daemon", self.file, self.folder + "/daemon"], stdout=subprocess.PIPE)
        self.processes.append(daemon)
        expect_true(is_readable(daemon.stdout), "the daemon doesn't open its log")
        ready = daemon.stdout.readline().split()
        expect_true(ready[:1] == [b"ready"], "the daemon doesn't start")
        return int(ready[1])

    def stop(self):
        status, _, err = audit("stop", self.folder + "/daemon")
        expect_true(status == 0, "the daemon doesn't stop: " + err)
        self.lose()

    def lose(self):
        for process in reversed(self.processes):
            process.kill()
            process.wait()
        subprocess.run(["fusermount3", "-u", "-z", self.folder + "/mounted"], stderr=subprocess.DEVNULL)
        if os.path.exists(self.socket):
            os.remove(self.socket)


def append(machine, counts):
    """Sends events, and notes each count that is acknowledged. The loss of the daemon ends it."""
    send = subprocess.Popen([program.PATH, "send", "--window", "8", machine.folder + "/daemon"], stdin=subprocess.PIPE,
                            stdout=subprocess.PIPE, stderr=subprocess.DEVNULL)
    try:
        send.stdin.write(b"".join(b"event 1 %08x\n" % number for number in range(EVENTS)))
        send.stdin.close()
    except BrokenPipeError:
        pass
    for line in send.stdout:
        if line.startswith(b"ack "):
            counts.append(int(line.split()[2]))
    send.wait()


def append_beside(machine, act):
    """Lets clients append while something happens after a random number of acknowledgements. Returns the greatest count
    acknowledged."""
    counts = []
    clients = [threading.Thread(target=append, args=(machine, counts)) for _ in range(CLIENTS)]
    for client in clients:
        client.start()
    moment = random.randrange(1, CLIENTS * EVENTS * 3 // 4)
    wait_while_growing(lambda: len(counts) >= moment, lambda: len(counts), "acknowledgement %d" % moment)
    act()
    for client in clients:
        client.join()
    return max(counts)


def lose_a_server(machine, replicas):
    """A kill, and bringing the replica back. Returns the greatest count acknowledged."""
    lost = random.choice(replicas)
    held = append_beside(machine, lost.kill)
    machine.stop()
    others = [replica for replica in replicas if replica is not lost]
    for replica in others:
        expect_true(replica.count() >= held, "an acknowledged event is missing in " + replica.image)
    expect_true(lost.count() <= others[0].count(), "the replica that was lost has more events")
    shutil.copy(others[0].image, lost.image)
    lost.start()
    return held


def play(kills):
    replicas = [Replica(number) for number in range(3)]
    with open("key", "w") as key:
        key.write("%064d\n" % 7)
    first = Machine("first", replicas)
    first.mount()
    status, _, err = audit("format", "--in-place", first.file, str(SECTORS), "key")
    expect_true(status == 0, "the store isn't formatted: " + err)
    first.lose()
    held = 0
    for number in range(kills):
        machine = Machine("first", replicas)
        machine.mount()
        expect_true(machine.daemon() >= held, "an acknowledged event is gone before kill %d" % number)
        held = lose_a_server(machine, replicas)
    print("%d kills of a server: %d acknowledged events, each in both others" % (kills, held))

    first = Machine("first", replicas)
    first.mount()
    first.daemon()
    second = Machine("second", replicas)
    expect_true(second.is_refused(), "two machines have the replicas at a time")
    held = append_beside(first, first.lose)
    second = Machine("second", replicas)
    second.mount()
    count = second.daemon()
    expect_true(count >= held, "an acknowledged event is lost with its machine")
    print("a lost machine: the second one opens %d events, of which %d had been acknowledged" % (count, held))
    second.stop()
    for replica in replicas:
        replica.kill()


def main(words):
    kills = int((program_of(words, 1) or [20])[0])
    needs(*TOOLS, devices=["/dev/fuse"])
    with folder_of_its_own("replicated-") as folder:
        try:
            play(kills)
        finally:
            end_all()
            for name in "first", "second":
                subprocess.run(["fusermount3", "-u", "-z", "%s/%s/mounted" % (folder, name)], stderr=subprocess.DEVNULL)
    return 0
