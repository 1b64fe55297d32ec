"""What the scenes of the operating system share."""
import contextlib
import fcntl
import os
import re
import shutil
import struct
import subprocess
import tempfile

from checks.parts.files import read
from checks.parts.logs import event_lines, payloads_of
from checks.parts.program import SECONDS
from checks.parts.rooms import FIRST_KEY
from checks.parts.tools import succeeds
from checks.parts.waiting import has_open, wait_until
from model import tree
from model.disk import SECTOR, Header, choose, header_sector, read_header
from read_export import sha256


def active_header(data):
    """The active header, or None if the two sectors are refused."""
    chosen = choose([data[:SECTOR], data[SECTOR:2 * SECTOR]])
    return None if isinstance(chosen, int) else chosen[0]


def header_at(data, slot):
    """The header in a sector."""
    return read_header(slot, bytes(data[slot * SECTOR:(slot + 1) * SECTOR]))


def read_pipe(path, writer):
    """What a program writes into a pipe. One that ends before it opens the pipe is waited for no longer."""
    descriptor = os.open(path, os.O_RDONLY | os.O_NONBLOCK)
    with open(descriptor, "rb") as pipe:
        wait_until(lambda: has_open(writer, path) or writer.poll() is not None, "a program that doesn't open %s" % path)
        os.set_blocking(descriptor, True)
        return pipe.read()


def pipe_to_write(path):
    """A pipe, once a program has opened it to read."""
    opened = []

    def opens():
        with contextlib.suppress(OSError):
            opened.append(os.open(path, os.O_WRONLY | os.O_NONBLOCK))
        return opened

    wait_until(opens, "a program that doesn't open %s" % path)
    os.set_blocking(opened[0], True)
    return open(opened[0], "wb", buffering=0)


def feed(process, data):
    with contextlib.suppress(BrokenPipeError):
        process.stdin.write(data)
        process.stdin.flush()
    with contextlib.suppress(BrokenPipeError):
        process.stdin.close()


@contextlib.contextmanager
def loop_device(path, *words):
    """A loop device over a file, made with these words of losetup, or None if this user can't make one. Another run of this check waits for it meanwhile:
    it would get the same device as soon as it is detached, while the system may still use it."""
    device = None
    with open(os.path.join(tempfile.gettempdir(), "check-system.loop"), "w") as turn:
        fcntl.flock(turn, fcntl.LOCK_EX)
        if os.geteuid() == 0 and shutil.which("losetup"):
            with contextlib.suppress(subprocess.TimeoutExpired):
                made = subprocess.run(["losetup", "--find", "--show", *words, path], stdout=subprocess.PIPE,
                                      stderr=subprocess.DEVNULL, timeout=SECONDS)
                device = made.stdout.decode().strip() if made.returncode == 0 else None
        if device:
            keep_to_owner(device)
        try:
            yield device
        finally:
            if device:
                succeeds("losetup", "--detach", device)
                wait_until(lambda: not succeeds("losetup", device), "a loop device that isn't detached")


def keep_to_owner(device):
    """Takes a device's node back from the group that a udev of this machine may have given it, once that is done."""
    succeeds("udevadm", "settle", "--timeout=5")
    os.chmod(device, 0o600)


# The line about a disk whose blocks are larger than a sector, with the file and the size of a block.
TORN_BLOCKS = (rb"audit: ([^\n\r\x1b]*): its disk writes blocks of (\d+) bytes, and may tear one in a power cut, "
               rb"which loses the store\r?\n")


def without_torn_blocks(messages):
    """Messages without that line: whether it comes depends on the disk of this machine."""
    return re.sub(TORN_BLOCKS, b"", messages)


def shared_copy(room):
    """A copy of the executable that another user can run, in a folder that everyone can enter."""
    os.chmod(room.folder, 0o755)
    copy = room.path("program")
    shutil.copyfile(room.executable, copy)
    os.chmod(copy, 0o755)
    return copy


def unsettled(room):
    """A store in the middle of a commit: one header is the newer one, the other is still the older one, and remains of
    a later batch follow the log."""
    store = room.store("settled", payloads_of("older", 7))
    older = read(store)
    room.done("append", store, given=event_lines(payloads_of("newer", 5)))
    newer = bytearray(read(store))
    low, high = sorted((header_at(newer, slot).generation, slot) for slot in (0, 1))
    slot = high[1]
    newer[slot * SECTOR:(slot + 1) * SECTOR] = older[slot * SECTOR:(slot + 1) * SECTOR]
    end = header_at(newer, low[1]).end
    newer[end * SECTOR:(end + 1) * SECTOR] = b"\x55" * SECTOR
    return bytes(newer)


def make_sparse(store, sectors, count):
    """Makes a store of some entries of the longest payload, and returns their leaf hashes, the last link and the root.
    Formatting and appending would write all sectors; here only the headers, and the first and the last sector of each
    entry, aren't zero. Opening checks no MAC."""
    longest = 32696
    head, cipher = struct.pack(">II", 1, longest), bytes(longest)
    last, leaves = bytes(32), []
    with open(store, "wb") as file:
        file.truncate(sectors * SECTOR)
        for index in range(count):
            last = sha256(last, cipher, head[:4])
            file.seek((2 + 64 * index) * SECTOR)
            file.write(head)
            file.seek((2 + 64 * index) * SECTOR + 8 + longest)
            file.write(last + bytes(32))
            leaves.append(sha256(b"\0", head, cipher, last, bytes(32)))
        root = tree.root(leaves)
        for generation in (3, 4):
            file.seek(generation % 2 * SECTOR)
            file.write(header_sector(Header(2, False, generation, sectors, count, 2 + 64 * count, root, last,
                                            FIRST_KEY)))
    return leaves, last, root
