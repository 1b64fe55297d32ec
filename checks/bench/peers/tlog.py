"""Go's transparency log: tlog.go over golang.org/x/mod/sumdb/tlog."""
import os
import shutil
import subprocess

from checks.bench.peers.peer import Peer, peak_of
from checks.parts.processes import start
from checks.parts.wrong import LeftOut, Wrong

SOURCES = "/usr/share/gocode"
PACKAGE = "src/golang.org/x/mod/sumdb/tlog"


class Tlog(Peer):
    NAME = "Go's tlog"

    def __init__(self, room, most):
        super().__init__(room, most)
        if not shutil.which("go") or not os.path.isdir(os.path.join(SOURCES, PACKAGE)):
            raise LeftOut("Go or golang.org/x/mod is missing")
        self.built, self.log = os.path.join(room, "tlog"), os.path.join(room, "log")
        source = os.path.join(os.path.dirname(os.path.abspath(__file__)), "tlog.go")
        how = {**os.environ, "GO111MODULE": "off", "GOPATH": SOURCES, "GOCACHE": os.path.join(room, "cache")}
        subprocess.run(["go", "build", "-o", self.built, source], check=True, env=how)
        os.mkdir(self.log)
        self.process = start([self.built, "append", self.log], stdin=subprocess.PIPE, stdout=subprocess.PIPE)

    def append(self, batches):
        for batch in batches:
            self.process.stdin.write(b"%d\n" % len(batch) + b"".join(line + b"\n" for line in batch))
            self.process.stdin.flush()
            if self.process.stdout.readline() != b"ok\n":
                raise Wrong("tlog doesn't append")

    def memory(self):
        return peak_of(self.process)

    def finish(self):
        self.process.stdin.close()
        self.process.wait()

    def size(self):
        return sum(os.path.getsize(os.path.join(self.log, name)) for name in os.listdir(self.log))

    def verify(self):
        return self.timed(lambda: subprocess.run([self.built, "verify", self.log], check=True))
