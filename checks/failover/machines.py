"""Machines with failover, and what it runs."""
import contextlib
import os
import signal
import subprocess
import sys
import threading
import time

from checks.failover.etcd import Link, Member
from checks.failover.placed import KINDS, source_at
from checks.parts import program
from checks.parts.places import tool
from checks.parts.tools import call

# Seconds of a lease, between looks, and for attaching and opening.
LEASE, LOOK, OPENING = 9, 1, 60
# What failover runs: the device as a file, and a daemon on it.
SCRIPT = r"""#!/bin/sh
set -eu
cd "$(dirname "$0")"
PATH=/usr/sbin:/usr/bin:/sbin:/bin
detach() {
    for each in file client; do
        if [ -f $each.pid ]; then kill -9 "$(cat $each.pid)" 2>/dev/null || :; fi
        rm -f $each.pid
    done
    fusermount3 -u -z mounted 2>/dev/null || :
    rm -f nbd
}
case $1 in
take)
    [ ! -e refuses ]
    detach
    {fence}
    {attach} >/dev/null 2>>messages
    until [ -s client.pid ]; do sleep 0.05; done
    until grep -q " 00010000 .* $PWD/nbd\$" /proc/net/unix; do kill -0 "$(cat client.pid)" && sleep 0.05 || exit 1; done
    nbdfuse "$PWD/mounted/store" "nbd+unix:///?socket=$PWD/nbd" >/dev/null 2>>messages &
    echo $! >file.pid
    until [ -s mounted/store ]; do kill -0 "$(cat client.pid)" "$(cat file.pid)" && sleep 0.05 || exit 1; done
    # The address of the store leads here now.
    ln -sfn "$PWD" address
    mv -T address ../address.of.store
    ;;
run)
    echo $$ >daemon.pid
    exec setpriv --pdeathsig KILL {audit} daemon mounted/store socket {sources} >/dev/null 2>>messages
    ;;
look)
    echo alive | {audit} send socket --text 7 --timeout 3 >/dev/null 2>&1
    touch looked
    ;;
drop) detach ;;
esac
"""
# A machine whose clock stops while a file is there.
STOPPED_CLOCK = """
import os, runpy, sys, time
stops, sys.argv[:] = sys.argv[1], sys.argv[2:]
real, stopped = time.clock_gettime, []
def clock(which):
    if not os.path.exists(stops):
        stopped.clear()
    elif not stopped:
        stopped.append(real(which))
    return stopped[0] if stopped else real(which)
time.clock_gettime = clock
sys.path.insert(0, os.path.dirname(sys.argv[0]))
runpy.run_path(sys.argv[0], run_name="__main__")
"""


def audit(*words):
    return call(program.PATH, *words).decode()


class Machine:
    """A machine with failover, and links to etcd of its own."""

    def __init__(self, name, device):
        self.name, self.folder, self.process, self.said = name, os.path.abspath(name), None, []
        self.socket, self.script = os.path.join(self.folder, "socket"), os.path.join(self.folder, "script")
        self.links = [Link(member) for member in Member.all]
        os.makedirs(self.folder + "/mounted")
        with open(self.script, "w") as file:
            text = SCRIPT.replace("{fence}", device.fence).replace("{attach}", device.attach)
            sources = " ".join("--writer %d:%s" % (kind, source_at(".", kind)) for kind in KINDS)
            file.write(text.replace("{audit}", program.PATH).replace("{sources}", sources))
        os.chmod(self.script, 0o755)

    def start(self):
        self.said = []
        self.process = subprocess.Popen(
            [sys.executable, "-c", STOPPED_CLOCK, self.path("clock-stops"), tool("failover"), "--ttl", str(LEASE),
             "--look", str(LOOK), "--opening", str(OPENING), "--ca", "ca.pem", "--cert", "own.pem", "--cert-key",
             "own.key",
             ",".join(link.address for link in self.links), "store", self.script],
            stdin=subprocess.DEVNULL, stderr=subprocess.PIPE)
        threading.Thread(target=self.listen, args=(self.process.stderr,), daemon=True).start()

    def listen(self, pipe):
        for line in pipe:
            self.said.append((time.monotonic(), line.decode().rstrip("\n")))

    def path(self, name):
        return os.path.join(self.folder, name)

    def when(self, text, since=0):
        """When failover said this last, since then; None if it didn't."""
        moments = [moment for moment, line in self.said if line.startswith("failover: " + text) and moment >= since]
        return moments[-1] if moments else None

    def is_waiting(self):
        """Whether it waits for the lease, whatever it said of etcd since."""
        waits = self.when("waiting for the lease")
        return waits is not None and waits > (self.when("this machine has the lease") or 0)

    def cut(self, is_cut=True):
        for link in self.links:
            link.is_cut = is_cut

    def processes(self):
        """Those of the device and the daemon, as the script has noted them."""
        for name in "daemon", "file", "client":
            with contextlib.suppress(FileNotFoundError):
                yield int(read_messages(self.path(name + ".pid")))

    def daemon(self):
        return int(read_messages(self.path("daemon.pid")))

    def signal(self, number):
        own = [] if self.process is None else [self.process.pid]
        for process in [*own, *self.processes()]:
            with contextlib.suppress(ProcessLookupError):
                os.kill(process, number)

    def messages(self):
        """What its device and its daemon said."""
        with contextlib.suppress(FileNotFoundError):
            return read_messages(self.path("messages")).splitlines()
        return []

    def lose(self):
        """All ends that runs there."""
        self.signal(signal.SIGKILL)
        if self.process is not None:
            self.process.wait()
            self.process = None
        for name in "daemon", "file", "client":
            with contextlib.suppress(FileNotFoundError):
                os.remove(self.path(name + ".pid"))
        subprocess.run(["fusermount3", "-u", "-z", self.path("mounted")], stderr=subprocess.DEVNULL)


def read_messages(path):
    """A text that may have any bytes."""
    with open(path, errors="replace") as file:
        return file.read()
