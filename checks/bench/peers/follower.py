"""This store: `append --follow`, and `verify`."""
import os
import subprocess

from checks.bench.peers.peer import Peer, peak_of
from checks.bench.stores import fill
from checks.parts import program
from checks.parts.processes import start
from checks.parts.program import done, whole
from checks.parts.wrong import Wrong, expect


class Follower(Peer):
    NAME = "`audit append --follow`, `verify`"

    def __init__(self, room, most):
        super().__init__(room, most)
        self.store, self.key, self.export = (os.path.join(room, name) for name in ("store", "key", "export"))
        with open(self.key, "w") as file:
            file.write("%064d\n" % 0)
        done("format", self.store, str(most + 3), self.key)
        fill(self.store, most + 3)
        words = [program.PATH, "append", self.store, "--follow", "--text", "1"]
        self.process = start(words, stdin=subprocess.PIPE, stdout=subprocess.PIPE)
        self.count, self.root = 0, b""

    def append(self, batches):
        for batch in batches:
            self.process.stdin.write(b"".join(line + b"\n" for line in batch))
            self.process.stdin.flush()
            self.await_count(self.count + len(batch))

    def await_count(self, wanted):
        while self.count < wanted:
            words = self.process.stdout.readline().split()
            if not words:
                raise Wrong("the follower ended with status %s" % self.process.wait())
            self.count, self.root = int(words[2]), words[3]

    def memory(self):
        return peak_of(self.process)

    def finish(self):
        self.process.stdin.close()
        self.process.wait()

    def size(self):
        # One sector holds an entry of such a line.
        return os.path.getsize(self.store)

    def verify(self):
        done("export", self.store, self.export)
        return self.timed(self.read_back, "%d:%s" % (self.count, self.root.decode()))

    def read_back(self, commitment):
        status, _, said = whole("verify", "--text", self.export, self.key, commitment)
        expect((status, said), (0, b"audit: verified %d open\n" % self.count), "verify")
