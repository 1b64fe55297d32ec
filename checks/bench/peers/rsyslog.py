"""rsyslogd into a file that it syncs."""
import os
import shutil
import socket
import subprocess
import time

from checks.bench.peers.peer import Peer, peak_of
from checks.parts.processes import start
from checks.parts.waiting import SECONDS
from checks.parts.wrong import LeftOut, Wrong

SETTINGS = """global(workDirectory="%(room)s")
module(load="imptcp")
main_queue(queue.type="linkedList" queue.dequeueBatchSize="%(size)d" queue.workerThreads="1")
template(name="line" type="string" string="%%rawmsg%%\\n")
input(type="imptcp" path="%(room)s/socket" unlink="on")
action(type="omfile" file="%(room)s/lines" template="line" sync="on" asyncWriting="off" flushOnTXEnd="on")
"""


class Rsyslog(Peer):
    NAME = "rsyslogd, a synced file"

    def __init__(self, room, most):
        super().__init__(room, most)
        if not shutil.which("rsyslogd"):
            raise LeftOut("rsyslogd is missing")
        self.path, self.process, self.wanted = os.path.join(room, "lines"), None, 0

    def takes(self, size):
        self.end()
        settings = os.path.join(self.room, "settings")
        with open(settings, "w") as file:
            file.write(SETTINGS % {"room": self.room, "size": size})
        words = ["rsyslogd", "-n", "-f", settings, "-i", os.path.join(self.room, "pid")]
        self.process = start(words, stderr=subprocess.DEVNULL)
        self.lines = self.connect()

    def connect(self):
        last = time.monotonic() + SECONDS
        while time.monotonic() < last:
            made = socket.socket(socket.AF_UNIX)
            try:
                made.connect(os.path.join(self.room, "socket"))
                return made
            except OSError:
                made.close()
                time.sleep(0.05)
        raise LeftOut("rsyslogd doesn't start here")

    def append(self, batches):
        for batch in batches:
            text = b"".join(line + b"\n" for line in batch)
            self.lines.sendall(text)
            self.wanted += len(text)
            self.await_size()

    def await_size(self):
        last = time.monotonic() + SECONDS
        while not os.path.exists(self.path) or os.path.getsize(self.path) < self.wanted:
            if time.monotonic() > last:
                raise Wrong("rsyslogd doesn't write its lines")

    def memory(self):
        return peak_of(self.process)

    def size(self):
        return os.path.getsize(self.path)

    def end(self):
        if self.process:
            self.process.terminate()
            self.process.wait()
