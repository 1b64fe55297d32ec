"""systemd-journald with sealing, in a mount namespace of its own."""
import os
import shutil
import signal
import socket
import subprocess
import time

from checks.bench.peers.peer import Peer, peak_of
from checks.parts.processes import start
from checks.parts.wrong import LeftOut, Wrong

JOURNALD = "/lib/systemd/systemd-journald"
SOCKETS = "/run/systemd/journal"
SETTINGS = """[Journal]
Storage=persistent
Seal=yes
RateLimitIntervalSec=0
RateLimitBurst=0
ForwardToSyslog=no
ForwardToKMsg=no
ForwardToConsole=no
ForwardToWall=no
ReadKMsg=no
Audit=no
"""
# Its own /run, its journal in our folder, a sealing key, and the mark that /var is there.
SCRIPT = """set -eu
mount -t tmpfs tmpfs /run
mkdir -p /run/systemd/journal /run/systemd/journald.conf.d /var/log/journal
printf %s "$SETTINGS" >/run/systemd/journald.conf.d/peer.conf
mount --bind "$1" /var/log/journal
mkdir -p "/var/log/journal/$(cat /etc/machine-id)"
journalctl --setup-keys --force --interval=15min >"$2" 2>/dev/null
touch /run/systemd/journal/flushed
exec "$3"
"""


class Journal(Peer):
    NAME = "systemd-journald with FSS"

    def __init__(self, room, most):
        super().__init__(room, most)
        if os.geteuid() != 0 or not os.path.exists(JOURNALD) or not shutil.which("unshare"):
            raise LeftOut("journald, unshare or root is missing")
        self.key = os.path.join(room, "key")
        journal = os.path.join(room, "journal")
        os.mkdir(journal)
        words = ["unshare", "--mount", "sh", "-c", SCRIPT, "sh", journal, self.key, JOURNALD]
        self.process = start(words, env={**os.environ, "SETTINGS": SETTINGS}, stderr=subprocess.DEVNULL)
        self.lines, self.calls = self.connect("socket", socket.SOCK_DGRAM), self.connect("io.systemd.journal")

    def connect(self, name, kind=socket.SOCK_STREAM):
        """A socket of the namespace."""
        path = "/proc/%d/root%s/%s" % (self.process.pid, SOCKETS, name)
        last = time.monotonic() + 30
        while True:
            made = socket.socket(socket.AF_UNIX, kind)
            try:
                made.connect(path)
                return made
            except OSError:
                made.close()
                if time.monotonic() > last or self.process.poll() is not None:
                    raise LeftOut("journald doesn't start here")
                time.sleep(0.05)

    def append(self, batches):
        for batch in batches:
            for line in batch:
                self.lines.send(b"PRIORITY=6\nMESSAGE=" + line + b"\n")
            self.synchronize()

    def synchronize(self):
        self.calls.sendall(b'{"method":"io.systemd.Journal.Synchronize"}\0')
        answer = b""
        while not answer.endswith(b"\0"):
            piece = self.calls.recv(4096)
            if not piece:
                raise Wrong("journald ended")
            answer += piece
        if b'"error"' in answer:
            raise Wrong("journald doesn't synchronize: %s" % answer)

    def memory(self):
        return peak_of(self.process)

    def size(self):
        return sum(os.stat(os.path.join(at, name)).st_blocks * 512
                   for at, _, names in os.walk(os.path.join(self.room, "journal")) for name in names)

    def verify(self):
        with open(self.key) as file:
            key = file.read().strip()
        words = ["nsenter", "--mount", "--target", str(self.process.pid), "journalctl", "--verify",
                 "--verify-key=" + key]
        return self.timed(lambda: subprocess.run(words, check=True, stdout=subprocess.DEVNULL,
                                                 stderr=subprocess.DEVNULL))

    def end(self):
        self.process.send_signal(signal.SIGTERM)
        self.process.wait()
