"""Measures durable appends and verification beside other programs that keep logs, all in one run.

usage: bin/bench peers EXECUTABLE [BATCHES [FOLDER]]

The same log lines of 100 bytes are appended BATCHES times one at a time and BATCHES times 64 at a time (2,000 if it
isn't given), each batch durable before the next one is sent:
- this store: `append --follow`, which acknowledges each batch;
- SQLite with a write-ahead log and synchronous FULL, one transaction a batch, alone and with a chain of SHA-256;
- systemd-journald with sealing (FSS), which is asked to synchronize after each batch, since it acknowledges nothing;
- rsyslogd into a file that is synced after each batch, which is watched, since it acknowledges nothing either;
- Go's transparency log (golang.org/x/mod/sumdb/tlog): the records, then the head of the tree, each synced.
Then each log is verified as a whole, as far as that peer can: hashes, seals, or nothing.

Each ratio is to the unavoidable work, which is measured in turns with the peer: of an append one write and one sync a
batch and one SHA-256 of each line, of a verification one read and one SHA-256 of each line. It prints a table. A peer
that isn't installed is left out with a line. journald needs root.
"""
import os
import tempfile

from checks.bench.peers.bare import Bare
from checks.bench.peers.follower import Follower
from checks.bench.peers.journal import Journal
from checks.bench.peers.rows import Row, print_table
from checks.bench.peers.rsyslog import Rsyslog
from checks.bench.peers.sqlite import Sqlite, SqliteChain
from checks.bench.peers.tlog import Tlog
from checks.parts import processes, program
from checks.parts.wrong import LeftOut, Usage

PEERS = Follower, Sqlite, SqliteChain, Journal, Rsyslog, Tlog
SIZES = 1, 64
# How often peer and unavoidable work take turns.
TURNS = 10


def line(number):
    """A log line of 100 bytes, of which no two are the same."""
    return b"host%02d sshd[%05d]: session %08d opened for user operator by (uid=0), 192.0.2.%03d port %05d ok" % (
        number % 97, number % 32768, number, number % 251, number % 65536)


def append_in_turns(peer, bare, batches, size, first):
    """The seconds of a peer's batches, and of the unavoidable work for them."""
    seconds, least, number = 0.0, 0.0, first
    for turn in range(TURNS):
        lines = [[line(number + at * size + of) for of in range(size)] for at in range(batches // TURNS)]
        seconds += peer.timed(peer.append, lines)
        least += bare.timed(bare.append, lines)
        number += len(lines) * size
    return seconds, least, number


def measure(make, batches, folder):
    """The row of a peer."""
    with tempfile.TemporaryDirectory(prefix="peer-", dir=folder) as room, tempfile.TemporaryDirectory(dir=folder) as own:
        bare, row, number = Bare(own), Row(make.NAME), 0
        peer = make(room, batches * sum(SIZES))
        try:
            for size in SIZES:
                peer.takes(size)
                before = number
                seconds, least, number = append_in_turns(peer, bare, batches, size, number)
                row.appended(number - before, seconds, least)
            row.memory = peer.memory()
            peer.finish()
            row.kept(number, peer.size())
            row.verified(number, peer.verify(), bare.timed(bare.verify, []))
        finally:
            peer.end()
            bare.end()
        return row


def main(words):
    if not 1 <= len(words) <= 3 or words[0].startswith("-"):
        raise Usage
    program.use(words[0])
    batches = int(words[1]) if len(words) > 1 else 2000
    folder = words[2] if len(words) > 2 else os.environ.get("TMPDIR", "/var/tmp")
    rows = []
    for make in PEERS:
        try:
            rows.append(measure(make, batches, folder))
        except LeftOut as reason:
            print("left out: %s: %s" % (make.NAME, reason))
        finally:
            processes.end_all()
    print_table(rows)
    return 0
