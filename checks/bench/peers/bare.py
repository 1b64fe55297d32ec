"""The work that no durable log of hashed lines can avoid."""
import hashlib
import os

from checks.bench.peers.peer import Peer


class Bare(Peer):
    """One write and one sync a batch, and one SHA-256 of each line."""

    NAME = "unavoidable"

    def __init__(self, room):
        super().__init__(room, 0)
        self.path = os.path.join(room, "lines")
        self.file = os.open(self.path, os.O_WRONLY | os.O_CREAT | os.O_APPEND, 0o600)

    def append(self, batches):
        for batch in batches:
            for line in batch:
                hashlib.sha256(line).digest()
            os.write(self.file, b"".join(line + b"\n" for line in batch))
            os.fdatasync(self.file)

    def verify(self, _=None):
        with open(self.path, "rb") as lines:
            for line in lines:
                hashlib.sha256(line).digest()

    def end(self):
        os.close(self.file)
