"""Measures a durable batch of small events in SQLite: write-ahead log, synchronous FULL, one transaction a batch.

usage: bin/bench sqlite [FOLDER [ROUNDS]]

It prints the time of a batch alone; with the SHA-256 blocks that a store hashes for it, done by Python's OpenSSL in one
text; and the time of those blocks and the file calls of a store that writes each sector by itself. The three are timed
in turns in one folder, and the minimum of each is printed. It is left out if this Python has no SQLite.
"""
import hashlib
import importlib.util
import os
import tempfile
import time

from checks.parts.wrong import LeftOut, Usage

SECTOR = 512
LARGE = 64


def hashed(size, round_number):
    """Hashes one text of as many blocks as a store's batch of `size` small events has: 11 each, and 40 of the batch."""
    text = bytearray(64 * (11 * size + 40) - 9)
    text[:8] = round_number.to_bytes(8, "big")
    return hashlib.sha256(text).digest()


def calls(file, first, size):
    """The file calls of a store's batch whose sectors are written one by one."""
    sector = b"\x5a" * SECTOR
    for at in range(first, first + size):
        os.pwrite(file, sector, SECTOR * at)
    os.fdatasync(file)
    for header in (0, 1):
        os.pwrite(file, sector, SECTOR * header)
        os.fdatasync(file)


def append(database, events):
    database.execute("BEGIN")
    database.executemany("INSERT INTO event (kind, payload) VALUES (?, ?)", events)
    database.execute("COMMIT")


def timed(work):
    start = time.perf_counter_ns()
    work()
    return time.perf_counter_ns() - start


def measure(database, file, size, rounds):
    events = [(1, b"hi")] * size
    ways = (
        lambda number: append(database, events),
        lambda number: (hashed(size, number), append(database, events)),
        lambda number: (hashed(size, number), calls(file, 2 + size * number, size)),
    )
    times = [[timed(lambda: way(number)) for way in ways] for number in range(rounds)]
    alone, with_hashes, bare = (min(column) / 1000 for column in zip(*times))
    print(
        f"a batch of {size} durable in SQLite: {alone:.0f} us, with a store's SHA-256 {with_hashes:.0f} us; "
        f"a store's single writes and syncs with it {bare:.0f} us, ratios {alone / bare:.2f} and "
        f"{with_hashes / bare:.2f}"
    )


def main(words):
    if len(words) > 2:
        raise Usage
    if importlib.util.find_spec("_sqlite3") is None:
        raise LeftOut("this Python has no SQLite")
    import sqlite3
    with tempfile.TemporaryDirectory(dir=words[0] if words else None) as room:
        database = sqlite3.connect(os.path.join(room, "events"), isolation_level=None)
        database.execute("PRAGMA journal_mode = WAL")
        database.execute("PRAGMA synchronous = FULL")
        database.execute("CREATE TABLE event (number INTEGER PRIMARY KEY, kind INTEGER, payload BLOB)")
        file = os.open(os.path.join(room, "sectors"), os.O_RDWR | os.O_CREAT)
        os.write(file, bytes(SECTOR * (2 + LARGE * int(words[1] if len(words) > 1 else 300))))
        os.fsync(file)
        for size in (1, LARGE):
            measure(database, file, size, int(words[1] if len(words) > 1 else 300))
        os.close(file)
        database.close()
    return 0
