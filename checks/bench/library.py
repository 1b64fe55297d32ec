"""Measures libauditstore and the Python package over it: a proof, an export that is verified in pieces beside `audit
verify`, appends to a server that acknowledges at once, and the import of the package. The least time of several runs
counts.

usage: bin/bench library EXECUTABLE [EVENTS]

The library is linked from the archive that `rt lib` leaves in crates/audit_c, or is the one that AUDIT_STORE_LIBRARY
names. EVENTS is how many events are verified, 200000 by default.
"""
import contextlib
import os
import socket
import subprocess
import sys
import time

from checks.library import common
from checks.library.examples import compiled
from checks.parts import program
from checks.parts.files import folder_of_its_own, read_text
from checks.parts.places import KEY
from checks.parts.program import done
from checks.parts.scenes import program_of
from checks.parts.wrong import expect, expect_true
from model import tree
from model.chain import ZERO_KEY, log_of

RUNS = 10
VERIFIED = 200_000
APPENDED = 100_000
# The numbers of entries of the logs that proofs are from.
LOGS = 16, 200, 1000


def least(call, runs=RUNS):
    """The least time of several runs."""
    times = []
    for _ in range(runs):
        begun = time.perf_counter()
        call()
        times.append(time.perf_counter() - begun)
    return min(times)


def measure_proofs():
    from audit_store import Commitment, check
    from history import root
    log = log_of([(1, b"an event of some bytes %d" % number) for number in range(max(LOGS))], ZERO_KEY)
    for count in LOGS:
        leaves = log.leaves[:count]
        hashes = tree.membership(leaves, 7)
        proof = tree.membership_proof(7, count, hashes, log.entries[7])
        commitment = Commitment(count, root(leaves))
        expect_true(check(proof, commitment), "a proof isn't accepted")
        took = least(lambda: [check(proof, commitment) for _ in range(2000)]) / 2000
        print("a proof of %d hashes: %.1f us" % (len(hashes), took * 1e6))


def measure_import():
    started = least(lambda: subprocess.run([sys.executable, "-c", "pass"], check=True))
    imported = least(lambda: subprocess.run([sys.executable, "-c", "import audit_store"], check=True))
    print("import: %.0f ms" % ((imported - started) * 1e3))


def exported(events):
    """An export of as many events, and the word of its commitment."""
    done("format", "store", str(3 * events + 1024), KEY)
    lines = b"".join(b"%08d session opened for user ada(uid=1000)\n" % number for number in range(events))
    acknowledged = done("append", "store", "--text", "1", data=lines).split()
    done("export", "store", "export")
    return b":".join(acknowledged[-2:]).decode()


def measure_verification(events):
    """In C in one pass, as `examples/library/verify.c` does it; in Python in two, as `audit verify` of a file."""
    from audit_store import Commitment, verify
    word = exported(events)
    key, claimed = bytes.fromhex(read_text(KEY).strip()), Commitment.parse(word)
    in_pieces = compiled("verify")

    def by_program():
        subprocess.run([program.PATH, "verify", "export", KEY, word, "--text"], stdout=subprocess.DEVNULL, check=True)

    def by_library():
        with open("export", "rb") as export:
            subprocess.run([in_pieces, KEY, word, "0"], stdin=export, stdout=subprocess.DEVNULL, check=True)

    def by_package():
        expect(sum(1 for _ in verify("export", key, claimed)), events, "the events that were verified")

    least_time = least(by_program, 5)
    print("audit verify: %.0f events a second" % (events / least_time))
    for what, call in (("in pieces, in C", by_library), ("in Python", by_package)):
        took = least(call, 5)
        print("%s: %.0f events a second, ratio %.2f" % (what, events / took, least_time / took))


@contextlib.contextmanager
def acknowledging(path):
    """A server in a process of its own that acknowledges every append, by as little work as it takes."""
    child = os.fork()
    if child == 0:
        acknowledge_all(path)
    try:
        while not os.path.exists(path):
            time.sleep(0.01)
        yield
    finally:
        os.kill(child, 9)
        os.waitpid(child, 0)


def acknowledge_all(path):
    server = socket.socket(socket.AF_UNIX, socket.SOCK_STREAM)
    server.bind(path + ".new")
    server.listen()
    os.rename(path + ".new", path)
    stream, _ = server.accept()
    held, index = b"", 0
    while True:
        piece = stream.recv(1 << 18)
        if not piece:
            os._exit(0)
        replies, passed, index = answered(held + piece, index)
        held = (held + piece)[passed:]
        stream.sendall(replies)


def answered(held, index):
    """The replies to the whole requests, how many bytes these take, and the next event's index."""
    at, replies = 0, []
    while len(held) - at >= 2:
        size = 2 + int.from_bytes(held[at:at + 2], "big")
        if len(held) - at < size:
            break
        kind, tag = held[at + 2], held[at + 3:at + 7]
        if kind == 8:
            replies.append(b"\0\x15\x88" + tag + bytes(16))
        else:
            head = b"\0\x35\x81" if kind == 1 else b"\0\x55\x89"
            replies.append(head + tag + index.to_bytes(8, "big") + (index + 1).to_bytes(8, "big")
                           + bytes(32 if kind == 1 else 64))
            index += 1
        at += size
    return b"".join(replies), at, index


def measure_client():
    from audit_store import Client
    events = [b"an event of some bytes %d" % number for number in range(APPENDED)]
    with acknowledging("fast.sock"), Client("fast.sock") as client:
        took = least(lambda: client.append_all(events), 1)
        print("appends with 64 in flight: %.0f a second" % (APPENDED / took))
        begun = time.perf_counter()
        receipts = client.append_placed(events, 7, 0)
        print("placed appends with 64 in flight: %.0f a second" % (APPENDED / (time.perf_counter() - begun)))
        expect_true(all(receipts), "an event has no receipt")


def main(words):
    events = int((program_of(words, 1) or [VERIFIED])[0])
    with common.use_library(), folder_of_its_own("bench-library-"):
        measure_proofs()
        measure_import()
        measure_verification(events)
        measure_client()
    return 0
