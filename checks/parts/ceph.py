"""A Ceph cluster on one machine, for what is shown with it: one monitor and three OSDs on loopback, for any user,
without systemd, kernel modules or a manager."""
import json
import os
import subprocess
import uuid

from checks.parts.tools import call, said_by
from checks.parts.waiting import free_port, wait_for
from checks.parts.wrong import Wrong, expect_true

TOOLS = ["ceph", "rbd", "monmaptool", "ceph-mon", "ceph-osd", "ceph-objectstore-tool"]
OSDS = 3
POOL = "rbd"
# A dead OSD is noticed at once, as its port refuses connections; one that is only slow, on a busy machine, has half a
# minute, and doesn't end itself if it was thought dead six times in ten minutes. librbd's cache is off, as
# docs/operations.md asks for.
CONFIGURATION = """[global]
fsid = {fsid}
mon host = 127.0.0.1:{port}
public addr = 127.0.0.1
cluster addr = 127.0.0.1
auth cluster required = none
auth service required = none
auth client required = none
run dir = {folder}
admin socket = {folder}/$name.$pid.asok
log file = {folder}/$name.log
log to stderr = false
crash dir = {folder}
mon data = {folder}/mon.$id
mon data avail crit = 0
paxos propose interval = 0.05
paxos min wait = 0.01
mon osd reporter subtree level = osd
mon osd min down reporters = 1
osd data = {folder}/osd.$id
osd objectstore = bluestore
bluestore block size = 8589934592
bluestore block create = true
osd crush chooseleaf type = 0
osd class update on start = false
osd heartbeat interval = 1
osd heartbeat grace = 30
osd max markdown count = 1000000
osd pool default size = {osds}
osd pool default min size = 2
osd pool default pg autoscale mode = off

[client]
rbd cache = false
"""


def state_of(image):
    """What the cluster says of itself and of an image, for a check that gives up."""
    return "\n".join("%s: %s" % (" ".join(words), said_by(*words))
                     for words in (["ceph", "-s"], ["rbd", "status", image], ["rbd", "lock", "ls", image]))


def start_silently(*words):
    return subprocess.Popen(words, stdin=subprocess.DEVNULL, stdout=subprocess.DEVNULL, stderr=subprocess.DEVNULL)


class Cluster:
    """The daemons, with their data in a folder. CEPH_CONF leads every tool and client to them."""

    def __init__(self, folder):
        self.folder, self.monitor, self.osds, self.prefixes = folder, None, [None] * OSDS, {}
        os.makedirs(folder)
        os.environ["CEPH_CONF"] = os.path.join(folder, "ceph.conf")
        self.port = free_port()
        self.fsid = str(uuid.uuid4())
        with open(os.environ["CEPH_CONF"], "w") as file:
            file.write(CONFIGURATION.format(fsid=self.fsid, port=self.port, folder=folder, osds=OSDS))

    def begin(self):
        """Makes everything, and returns once all replicas are there."""
        monitors = os.path.join(self.folder, "monmap")
        call("monmaptool", "--create", "--fsid", self.fsid, "--addv", "a", "[v2:127.0.0.1:%d]" % self.port, monitors)
        call("ceph-mon", "--mkfs", "-i", "a", "--monmap", monitors)
        self.monitor = start_silently("ceph-mon", "-f", "-i", "a")
        makers = [self.make(number) for number in range(OSDS)]
        expect_true(all(maker.wait() == 0 for maker in makers), "an OSD isn't made")
        for number in range(OSDS):
            self.start(number)
        wait_for(lambda: self.up() == OSDS, "an OSD")
        # One placement group: `ceph tell` asks its primary OSD for its state, so no manager is needed.
        self.ceph("osd", "pool", "create", POOL, "1", "1", "replicated")
        self.ceph("osd", "pool", "application", "enable", POOL, "rbd")
        self.wait_clean()

    def make(self, number):
        name = str(uuid.uuid4())
        self.ceph("osd", "new", name, str(number))
        os.mkdir(self.data(number))
        return start_silently("ceph-osd", "-i", str(number), "--mkfs", "--osd-uuid", name)

    def data(self, number):
        return os.path.join(self.folder, "osd.%d" % number)

    def ceph(self, *words):
        """What a command says, as JSON. The blocklist is followed by a second list, of networks."""
        out = call("ceph", "--connect-timeout", "60", *words, "-f", "json").decode().strip()
        return json.JSONDecoder().raw_decode(out)[0] if out else None

    def start(self, number):
        self.osds[number] = start_silently("ceph-osd", "-f", "-i", str(number))

    def kill(self, number):
        self.osds[number].kill()
        self.osds[number].wait()

    def up(self):
        return self.ceph("osd", "stat")["num_up_osds"]

    def is_clean(self):
        """Whether the placement group has all replicas, by the newest map, and none is behind."""
        epoch = self.ceph("osd", "stat")["epoch"]
        try:
            group = json.loads(call("ceph", "tell", "1.0", "query", timeout=10))
        except (Wrong, subprocess.TimeoutExpired):
            return False
        return group["epoch"] >= epoch and len(group["acting"]) == OSDS and group["state"] == "active+clean"

    def wait_clean(self):
        wait_for(lambda: self.up() == OSDS, "an OSD")
        wait_for(self.is_clean, "the recovery of an OSD")

    def make_image(self, name, size):
        """An image that is one object of up to 32 MiB, so that a replica is read out of an OSD at once."""
        kilobytes = "%dK" % (size // 1024)
        call("rbd", "create", "--size", kilobytes, "--object-size", kilobytes, "--image-feature", "exclusive-lock",
             name)
        self.prefixes[name] = json.loads(call("rbd", "info", name, "--format", "json"))["block_name_prefix"]

    def replica(self, number, image, size):
        """The file of one OSD's own replica of an image. The OSD doesn't run."""
        found = os.path.join(self.folder, "replica.%d" % number)
        if os.path.exists(found):
            os.remove(found)
        call("ceph-objectstore-tool", "--data-path", self.data(number), "--no-mon-config", "--pgid", "1.0",
             self.prefixes[image] + "." + "0" * 16, "get-bytes", found)
        os.truncate(found, size)
        return found

    def end(self):
        for process in [*self.osds, self.monitor]:
            if process is not None:
                process.kill()
                process.wait()
