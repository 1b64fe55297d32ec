"""What a daemon needs of memory, and how it ends without."""
import os
import subprocess

from checks.daemon.common import PLACES, Daemon, sectors_for
from checks.parts.clients import connected, index_in
from checks.parts.frames import CLOSE, COMMITMENT, append_frame, entry_frame, proof_frames, reply_of, take
from checks.parts.logs import payloads_of
from checks.parts.processes import forget
from checks.parts.program import SECONDS
from checks.parts.rooms import with_data_limit
from checks.parts.scenes import scene
from checks.parts.wrong import expect, expect_true

# More than the daemon keeps for a client that doesn't read.
BACKLOG = 1 << 20


def resident(process):
    """The bytes of memory that a process has taken at most, and takes now."""
    with open("/proc/%d/status" % process.pid) as file:
        found = dict(line.split(":", 1) for line in file if line.startswith(("VmHWM", "VmRSS")))
    return tuple(int(found[name].split()[0]) << 10 for name in ("VmHWM", "VmRSS"))


@scene
def readers_need_little_memory(room):
    """Sixteen clients that ask for the longest entries in single pieces and take none: a daemon keeps one backlog for
    each."""
    store = room.store("store", [b"x" * 32_696] * 8, sectors=1_000)
    daemon = Daemon(room, store)
    before = resident(daemon.process)[0]
    clients = [connected(daemon.socket) for _ in range(PLACES)]
    for client in clients:
        client.sendall(entry_frame(1) * 273)
    daemon.settle()
    taken = resident(daemon.process)[0] - before
    # A buffer may have twice its bytes, and what it had before may still be the process's. Without a limit it is 143
    # MB.
    most = PLACES * 6 * BACKLOG
    expect_true(taken < most, "sixteen readers take %d bytes of a daemon's memory" % taken)
    for client in clients:
        client.close()
    daemon.stopped_well()


@scene
def refused_memory_is_told(room):
    """With less and less memory a daemon begins and ends as ever, or reports the lack, and leaves no socket."""
    store = room.store("store", payloads_of("before", 20), sectors=sectors_for(10_000))
    found = set()
    for limit in range(2700, 100, -10 if room.is_long else -60):

        prepare = with_data_limit(limit)
        # An executable of bin/try can't be loaded with so little memory.
        loaded = subprocess.run([room.executable, "--help"], stdout=subprocess.DEVNULL, stderr=subprocess.DEVNULL,
                                preexec_fn=prepare)
        if loaded.returncode not in (0, 4):
            break
        begun = room.start("daemon", store, room.path("socket"), preexec_fn=prepare)
        if begun.stdout.readline():
            client = connected(room.path("socket"))
            client.sendall(append_frame(b"x" * 30000) + COMMITMENT)
            replies = take(client, 55 + 47)
            client.close()
            order = room.run("stop", room.path("socket")) if len(replies) == 55 + 47 else (4, b"", b"")
        else:
            order = (4, b"", b"")
        output, messages = begun.communicate(timeout=SECONDS)
        forget(begun)
        found.add(begun.returncode)
        expect(begun.returncode, order[0], "the status with %d KiB" % limit)
        expect(messages, b"" if begun.returncode == 0 else b"audit: 12 Memory\n", "messages with %d KiB" % limit)
        expect_true(not any(os.path.lexists(room.path(name)) for name in ("socket", "socket.stop")),
                    "sockets are left with %d KiB" % limit)
    expect_true(0 in found or not found, "no daemon begins")


# The KiB of data with which a daemon has to serve sixteen clients.
LITTLE = 8 << 10


@scene
def sixteen_clients_need_little_memory(room):
    """Within a few MiB, entries of each number of sectors, shortest and longest, are appended and asked for by sixteen
    clients, with their proofs, and 63 events are closed in one pass: memory refused for no reason shows here."""
    prepare = with_data_limit(LITTLE)
    # An executable of bin/try can't be loaded with so little memory.
    loaded = subprocess.run([room.executable, "--help"], stdout=subprocess.DEVNULL, stderr=subprocess.DEVNULL,
                                preexec_fn=prepare)
    how = {"preexec_fn": prepare} if loaded.returncode == 0 else {}
    daemon = Daemon(room, room.store("store", sectors=6_000), "--allow-close", **how)
    clients = [connected(daemon.socket) for _ in range(PLACES)]
    # An entry is 72 bytes longer than its payload.
    lengths = [0] + [sectors * 512 - 72 + more for sectors in range(1, 64) for more in (0, 1)] + [64 * 512 - 72]
    for at, length in enumerate(lengths):
        client = clients[at % PLACES]
        client.sendall(append_frame(bytes(length)))
        expect(index_in(reply_of(client)), at, "the index of a payload of %d bytes" % length)
    count = len(lengths)
    for at, length in enumerate(lengths):
        client = clients[at % PLACES]
        client.sendall(entry_frame(at) + proof_frames(at, count))
        entry, member, increment = (reply_of(client) for _ in range(3))
        expect((entry[0], len(entry)), (0x85, 5 + 72 + length), "the entry of a payload of %d bytes" % length)
        expect((member[0], member[6 + 32 * member[5]:]), (0x83, entry[5:]), "the proof of event %d" % at)
        expect((increment[0], len(increment)), (0x84, 6 + 32 * increment[5]), "the increment from %d" % (at + 1))
    clients[-1].sendall(append_frame(b"") * 63 + CLOSE)
    expect([index_in(reply_of(clients[-1])) for _ in range(64)], list(range(count, count + 64)), "a close of 63 events")
    for client in clients:
        client.close()
    daemon.stopped_well()
