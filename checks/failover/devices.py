"""Devices that fence: NBD servers behind a quorum, and an image of Ceph."""
import contextlib
import os
import subprocess
import threading

from checks.failover.machines import read_messages
from checks.parts import ceph
from checks.parts.files import read
from checks.parts.places import tool
from checks.parts.quorums import quorum_of
from checks.parts.waiting import wait_for

# BLOCK is what is read of a device at once.
REPLICAS, BLOCK = 3, 4096
# Servers at another address than those that a fenced machine knows, once they listen there. Each is reached a moment
# after the one before, as over a network. All stand still before one ends: a machine that goes on would write to those
# that are left, until each replica has another content and no two of them agree.
NBD_FENCE = r"""date +%s%N >../address.new
    mv ../address.new ../address
    for signal in STOP KILL; do
        for each in 0 1 2; do
            until kill -$signal "$(cat ../replica$each.pid)"; do sleep 0.05; done
            sleep 0.1
        done
    done
    for each in 0 1 2; do
        until grep -q " 00010000 .*/replica$each\.$(cat ../address)\$" /proc/net/unix; do sleep 0.05; done
    done"""


class Replica(threading.Thread):
    """An NBD server of an image, which takes one connection. Where it ends it is started again, at the address of
    then."""

    def __init__(self, number):
        super().__init__(daemon=True)
        self.name, self.server, self.is_over = os.path.abspath("replica%d" % number), None, False
        with open(self.name + ".image", "wb") as image:
            image.truncate(size.sectors * 512)
        self.start()

    def run(self):
        while not self.is_over:
            path = self.name + "." + read_messages("address").strip()
            with contextlib.suppress(FileNotFoundError):
                os.remove(path)
            self.server = subprocess.Popen(["nbdkit", "--foreground", "--unix", path, "--filter=limit", "file",
                                            self.name + ".image",
                                            "limit=1"], stdin=subprocess.DEVNULL, stderr=subprocess.DEVNULL)
            with open(self.name + ".pid.new", "w") as file:
                file.write("%d\n" % self.server.pid)
            os.rename(self.name + ".pid.new", self.name + ".pid")
            self.server.wait()

    def end(self):
        self.is_over = True
        self.server.kill()
        self.join()


class Nbd:
    """Three replicas behind a quorum of two."""
    tools = ["qemu-nbd"]
    fence = NBD_FENCE

    def __init__(self):
        with open("address", "w") as file:
            file.write("0\n")
        self.replicas = [Replica(number) for number in range(REPLICAS)]
        wait_for(lambda: all(os.path.exists(replica.name + ".pid") for replica in self.replicas), "a replica")
        options = quorum_of(replica.name + ".$(cat ../address)" for replica in self.replicas)
        self.attach = ('qemu-nbd --fork --pid-file client.pid --persistent --socket "$PWD/nbd" --image-opts "%s"'
                       % options)

    def state(self):
        """In how many blocks each replica has another content: no two agree, and the quorum can't read it."""
        images = [read(replica.name + ".image") for replica in self.replicas]
        starts = range(0, len(images[0]), BLOCK)
        differing = sum(len({image[at:at + BLOCK] for image in images}) == REPLICAS for at in starts)
        return "blocks of which each replica has another content: %d" % differing

    def end(self):
        for replica in self.replicas:
            replica.end()


class Ceph:
    """An image of a Ceph cluster."""
    tools = ceph.TOOLS
    fence = '"%s" rbd/store >/dev/null' % tool("fence-ceph")
    attach = 'nbdkit --pidfile client.pid --unix "$PWD/nbd" python "%s" image=rbd/store' % tool("rbd-exclusive.py")

    def __init__(self):
        self.cluster = ceph.Cluster(os.path.abspath("ceph"))
        self.cluster.begin()
        self.cluster.make_image("store", size.sectors * 512)

    def state(self):
        return ceph.state_of("rbd/store")

    def end(self):
        self.cluster.end()


class Size:
    """How many sectors the store has."""
    sectors = None


size = Size()
