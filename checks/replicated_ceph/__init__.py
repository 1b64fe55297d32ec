"""A store on an image of Ceph with three replicas, on this machine: OSDs are killed while a daemon and its clients go
on, and come back; then two machines take the image from each other.

usage: bin/check replicated-ceph EXECUTABLE [--qemu] [KILLS [TAKEOVERS]]
       bin/check replicated-ceph EXECUTABLE --unsafe [TAKEOVERS]

The defaults are 10 kills of an OSD, of which the store has room for about 200, and 100 takeovers. With --qemu the
image is attached by qemu-storage-daemon, otherwise by nbdkit with rbd-exclusive.py and nbdfuse. It needs Debian's
ceph-mon, ceph-osd, ceph-common, fuse3, and nbdkit, nbdkit-plugin-python and libnbd-bin, or qemu-system-common and
qemu-block-extra, and FUSE. --unsafe counts what is lost with librbd's cache, in 100 takeovers by default, and as many
without it, and with the feature exclusive-lock alone; it needs all of these.

What it shows, and fails if it isn't so:
- while an OSD is away, the daemon acknowledges on, and each of the others by itself holds every acknowledged event. The
  one that comes back is healed by Ceph: nothing is copied by hand;
- with two OSDs away nothing is acknowledged; once one is back, the daemon goes on;
- while one machine has the image, another can't attach it (not with --qemu, which doesn't keep the lock to itself);
- a machine that fences the other first (fence-ceph) opens a store with every acknowledged event at its index, whether
  the other hung as a whole, its client of the image, its daemon, or nothing. The fenced daemon ends with `11 Device`,
  status 3, at its next append, also if it was idle. Until then it answers questions, with a past that its successor's
  log extends.
"""
import functools
import os
import subprocess

from checks.parts import ceph
from checks.parts.files import folder_of_its_own
from checks.parts.scenes import program_of
from checks.parts.tools import needs
from checks.parts.wrong import LeftOut, Usage, told
from checks.replicated_ceph.common import CLIENTS, FEW, FLOOD, MANY, OF_A_STORE, PATH, SIZES, how, say
from checks.replicated_ceph.machines import Machine
from checks.replicated_ceph.scenes import kill_osds, lose_two_osds, read_replicas, refuse_second
from checks.replicated_ceph.takeovers import Takeover, take_over
from checks.replicated_ceph.unsafe import play_unsafe


def begin(cluster):
    cluster.begin()
    cluster.make_image("store", how.sectors * 512)
    say("the cluster is there")


def play(kills, takeovers, cluster):
    machine = Machine("first")
    machine.attach()
    machine.format()
    machine.start()
    say("the store is formatted and served")
    if kills:
        kill_osds(cluster, machine, kills)
    lose_two_osds(cluster, machine)
    if not how.qemu:
        refuse_second(machine)
    machine = take_over(cluster, machine, takeovers)
    read_replicas(cluster, machine)


def expect_complete():
    """All that is needed is there, or the check is left out."""
    attach = ["qemu-storage-daemon"] if how.qemu else ["nbdkit", "nbdfuse"]
    needs(*ceph.TOOLS, *attach, "fusermount3", devices=["/dev/fuse"])
    if not how.qemu:
        environment = dict(os.environ, PATH=PATH)
        probe = subprocess.run(["nbdkit", "python", "--dump-plugin"], env=environment, capture_output=True)
        modules = subprocess.run(["python3", "-c", "import rados, rbd"], env=environment, capture_output=True)
        if probe.returncode or modules.returncode:
            raise LeftOut("there is no Python of nbdkit with rados and rbd")


def numbers_of(words):
    """KILLS and TAKEOVERS, and the size of a store that holds the events of all kills and of the takeovers that it
    sees."""
    given = [int(word) for word in words]
    kills, takeovers = given + [10, 100][len(given):]
    seen = min(takeovers, OF_A_STORE)
    floods = sum(Takeover.is_flooded(number) for number in range(seen))
    events = CLIENTS * ((kills + 2 + seen - floods) * MANY + floods * FLOOD + seen * FEW)
    return kills, takeovers, next(size for size in SIZES if size > events + 64)


def task_of(words):
    """What to play on a cluster."""
    given, rest = {"--qemu", "--unsafe"} & set(words), [word for word in words if word not in ("--qemu", "--unsafe")]
    try:
        if "--unsafe" in given:
            takeovers, how.sectors = int((program_of(rest, 1) or [100])[0]), SIZES[1]
            how.qemu = True
            expect_complete()
            how.qemu = False
            return lambda _: play_unsafe(takeovers)
        how.qemu = "--qemu" in given
        kills, takeovers, how.sectors = numbers_of(program_of(rest, 2))
    except (StopIteration, ValueError):
        raise Usage from None
    return functools.partial(play, kills, takeovers)


def main(words):
    task = task_of(words)
    expect_complete()
    with folder_of_its_own("replicated-ceph-") as folder:
        cluster = ceph.Cluster(os.path.join(folder, "ceph"))
        try:
            begin(cluster)
            task(cluster)
            return 0
        except Exception as wrong:
            print("replicated-ceph: %s" % told(wrong))
            return 1
        finally:
            for machine in Machine.all:
                machine.lose()
            cluster.end()
