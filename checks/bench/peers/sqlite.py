"""SQLite with a write-ahead log, alone and with a chain of SHA-256."""
import hashlib
import importlib.util
import os

from checks.bench.peers.peer import Peer
from checks.parts.wrong import LeftOut, Wrong


class Sqlite(Peer):
    NAME = "SQLite, WAL, synchronous FULL"

    def __init__(self, room, most):
        super().__init__(room, most)
        if importlib.util.find_spec("_sqlite3") is None:
            raise LeftOut("this Python has no SQLite")
        import sqlite3
        self.base = sqlite3.connect(os.path.join(room, "events"), isolation_level=None)
        self.base.execute("PRAGMA journal_mode = WAL")
        self.base.execute("PRAGMA synchronous = FULL")
        self.base.execute("CREATE TABLE event (number INTEGER PRIMARY KEY, line BLOB, link BLOB)")

    def rows(self, batch):
        return [(line, None) for line in batch]

    def append(self, batches):
        for batch in batches:
            self.base.execute("BEGIN")
            self.base.executemany("INSERT INTO event (line, link) VALUES (?, ?)", self.rows(batch))
            self.base.execute("COMMIT")

    def finish(self):
        self.base.execute("PRAGMA wal_checkpoint(TRUNCATE)")

    def end(self):
        self.base.close()


class SqliteChain(Sqlite):
    """The same, and each row has the SHA-256 of the one before and of its line."""

    NAME = "SQLite with a chain of SHA-256"

    def __init__(self, room, most):
        super().__init__(room, most)
        self.link = bytes(32)

    def rows(self, batch):
        made = []
        for line in batch:
            self.link = hashlib.sha256(self.link + line).digest()
            made.append((line, self.link))
        return made

    def verify(self):
        return self.timed(self.follow)

    def follow(self):
        link = bytes(32)
        for line, stored in self.base.execute("SELECT line, link FROM event ORDER BY number"):
            link = hashlib.sha256(link + line).digest()
            if link != stored:
                raise Wrong("the chain is broken")
