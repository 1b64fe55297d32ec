"""Block devices, and what stands in the place of a store."""
import os
import pty
import re
import shutil
import socket
import stat
import struct

from checks.parts.clients import Client
from checks.parts.files import read, write
from checks.parts.logs import event_lines, payloads_of
from checks.parts.program import FILE_EXISTS, FILE_FAULT, IN_USE, SECONDS
from checks.parts.scenes import scene
from checks.parts.tools import succeeds
from checks.parts.waiting import has_locked, wait_until
from checks.parts.wrong import expect, expect_true, short
from checks.system.common import TORN_BLOCKS, loop_device, read_pipe
from model.disk import SECTOR


@scene
def there_are_devices_in_place(room):
    """`format --in-place` formats an existing file or block device that begins with zeros, and any with --erase."""
    base = room.store("base", payloads_of("device", 3), sectors=64)
    empty = (0, b"formatted 64\n", b"")

    def in_place(path, *words):
        return room.run("format", "--in-place", *words, path, "64", room.key_file)

    def is_used(path):
        expect(room.run("append", path, given=event_lines([b"in place"]))[0], 0, "append to %s" % path)
        expect(room.run("show", path)[1].split()[1], b"1", "show %s" % path)
        expect(room.run("show", "--read-only", path), room.run("show", path), "show --read-only %s" % path)
        expect(room.run("export", path, room.path("made"))[0], 0, "export %s" % path)

    write(room.path("zeros"), bytes(64 * SECTOR))
    expect(in_place(room.path("zeros")), empty, "format --in-place of zeros")
    is_used(room.path("zeros"))
    for name, data in [("whole", read(base)), ("first", read(base)[:SECTOR] + bytes(63 * SECTOR)),
                       ("second", os.urandom(SECTOR) + read(base)[SECTOR:]), ("noise", os.urandom(64 * SECTOR))]:
        write(room.path(name), data)
        expect(in_place(room.path(name)), FILE_EXISTS, "format --in-place of a store")
        expect_true(read(room.path(name)) == data, "format --in-place changes a store")
        expect(in_place(room.path(name), "--erase"), empty, "format --in-place --erase of a store")
        is_used(room.path(name))
    expect_sizes_kept(room, in_place, is_used)

    write(room.path("disk"), bytes(64 * SECTOR))
    with loop_device(room.path("disk")) as device:
        if not device:
            return
        expect_device_formatted(room, empty, in_place, is_used, device)


def expect_device_formatted(room, empty, in_place, is_used, device):
    """A block device is formatted like a file."""
    expect(room.run("format", device, "64", room.key_file), FILE_EXISTS, "format of a device")
    expect(in_place(device), empty, "format --in-place of a device")
    is_used(device)
    expect(in_place(device), FILE_EXISTS, "format --in-place of a device with a store")
    expect(room.run("format", "--in-place", "--erase", device, "65", room.key_file)[0], 1,
           "format --in-place of a device that is too small")
    expect(in_place(device, "--erase"), empty, "format --in-place --erase of a device")
    is_used(device)


def expect_sizes_kept(room, in_place, is_used):
    """A longer file keeps its length, and one that is too small is unchanged."""
    # A longer file keeps its length, and one that is too small is unchanged.
    tail = b"\xaa" * (10 * SECTOR)
    write(room.path("longer"), bytes(64 * SECTOR) + tail)
    status, output, messages = in_place(room.path("longer"), "--erase")
    expect_true((status, messages) == (0, b"") and output in (b"formatted 64\n", b"formatted 74\n"),
                "format --in-place of a longer file: %s" % short((status, output, messages)))
    expect(os.path.getsize(room.path("longer")), 74 * SECTOR, "the length of a longer file")
    is_used(room.path("longer"))
    if output == b"formatted 64\n":
        expect_true(read(room.path("longer")).endswith(tail), "what is after a store in a longer file is changed")
    small = os.urandom(63 * SECTOR)
    write(room.path("small"), small)
    status, output, messages = in_place(room.path("small"))
    expect((status, output, messages.split(b"\n")[0]), (1, b"", b"audit: 14 BadSize"),
           "format --in-place of a file that is too small")
    expect_true(b"63" in messages.split(b"\n", 1)[1], "its size isn't told: %r" % messages)
    expect_true(read(room.path("small")) == small, "format --in-place changes a file that is too small")
    expect(in_place(room.path("none")), FILE_FAULT, "format --in-place of no file")
    expect_true(not os.path.exists(room.path("none")), "format --in-place makes a file")
    expect(room.run("format", room.path("small"), "16", room.key_file), FILE_EXISTS, "format of a file that is there")


@scene
def devices_are_opened_once(room):
    """A store on a block device is locked, whatever node, loop device or file leads to it."""
    write(room.path("disk"), bytes(64 * SECTOR))
    with loop_device(room.path("disk")) as device:
        if not device:
            return
        node = room.path("node")
        os.mknod(node, 0o600 | stat.S_IFBLK, os.stat(device).st_rdev)
        room.done("format", "--in-place", device, "64", room.key_file)
        names = [device, node, room.path("disk")]
        for served in names:
            server = room.serve(served, room.path("socket"))
            for path in names:
                for words in [("append", path), ("show", path), ("show", "--read-only", path), ("close", path),
                              ("serve", path, room.path("none"), "1"),
                              ("format", "--in-place", "--erase", path, "64", room.key_file)]:
                    expect(room.run(*words, given=event_lines([b"second"])), IN_USE,
                           "%s of %s beside a server over %s" % (words[0], path, served))
                expect(room.done("show", "--header", path).split()[:2], [b"commit", b"%d" % names.index(served)],
                       "the header of %s" % path)
            client = Client(room.path("socket"))
            client.append(b"served")
            client.end()
            expect(server.wait(SECONDS), 0, "the server's status")
        expect(room.payloads(device), [b"served"] * 3, "the store after three servers")
        # Several programs may read it.
        os.mkfifo(room.path("pipe"))
        reader = room.start("export", "--read-only", node, room.path("pipe"))
        wait_until(lambda: has_locked(reader, node) or reader.poll() is not None,
                   "an export that doesn't lock its store")
        for path in names:
            expect(room.run("show", "--read-only", path)[0::2], (0, b""),
                   "show --read-only of %s beside a reader" % path)
        read_pipe(room.path("pipe"), reader)
        expect(reader.wait(SECONDS), 0, "the reader's status")
    expect_disk_of_partition_locked(room)


def expect_disk_of_partition_locked(room):
    """The disk of a partition is locked with it, and other partitions aren't."""
    starts = (64, 128)
    rows = b"".join(bytes([0, 0, 0, 0, 0x83, 0, 0, 0]) + struct.pack("<II", start, 64) for start in starts)
    write(room.path("parts"), (bytes(446) + rows).ljust(510, b"\0") + b"\x55\xaa" + bytes(255 * SECTOR))
    with loop_device(room.path("parts")) as device:
        parts = ["%sp%d" % (device, number) for number in (1, 2)]
        if not succeeds("partx", "--add", device) or not all(os.path.exists(part) for part in parts):
            return
        try:
            for part in parts:
                room.done("format", "--in-place", part, "64", room.key_file)
            server = room.serve(parts[0], room.path("partly"))
            for path in [device, room.path("parts")]:
                expect(room.run("format", "--in-place", "--erase", path, "64", room.key_file), IN_USE,
                       "format of %s beside a server over a part of it" % path)
            expect(room.run("append", parts[1], given=event_lines([b"beside"]))[0], 0, "append to another partition")
            Client(room.path("partly")).end()
            expect(server.wait(SECONDS), 0, "the server's status")
        finally:
            succeeds("partx", "--delete", device)


@scene
def formatting_spares_what_is_used(room):
    """`format --in-place` erases nothing without --erase, and never what the system uses."""
    size = 8 << 20

    def refused(path, wanted, what, *words):
        found = room.run("format", "--in-place", *words, path, "64", room.key_file)
        expect(found, wanted, "format --in-place %s" % what)

    # The marks of ext4, of a RAID member, of ISO 9660 and of btrfs, and the last byte that is looked at.
    for place in (0, 1080, 4096, 32769, 65600, (1 << 20) - 1):
        data = bytes(place) + b"\x53" + bytes((2 << 20) - place - 1)
        write(room.path("marked"), data)
        refused(room.path("marked"), FILE_EXISTS, "of a file with a byte at %d" % place)
        expect_true(read(room.path("marked")) == data, "format --in-place erases a byte at %d" % place)
    write(room.path("marked"), bytes(64 * SECTOR - 1) + b"\1")
    refused(room.path("marked"), FILE_EXISTS, "of a short file with a last byte")
    room.done("format", "--in-place", "--erase", room.path("marked"), "64", room.key_file)

    write(room.path("disk"), bytes(size))
    with loop_device(room.path("disk")) as device:
        if not device or not succeeds("mkfs.ext4", "-q", "-F", device):
            return
        before = read(room.path("disk"))
        refused(device, FILE_EXISTS, "of a file system")
        expect_true(read(room.path("disk")) == before, "format --in-place changes a file system")
        expect_used_spared(room, size, refused, device)


def expect_used_spared(room, size, refused, device):
    """A device that is mounted, mapped or swapped to is in use, by whatever name."""
    folder, node = room.path("mounted"), room.path("node")
    os.mkdir(folder)
    os.mknod(node, 0o600 | stat.S_IFBLK, os.stat(device).st_rdev)
    if succeeds("mount", device, folder):
        try:
            write(folder + "/kept", b"kept")
            for path in [device, node, room.path("disk")]:
                for words in [(), ("--erase",)]:
                    refused(path, IN_USE, "of a mounted device as %s" % path, *words)
            expect(read(folder + "/kept"), b"kept", "a file of a mounted device")
        finally:
            succeeds("umount", folder)
        expect_true(succeeds("e2fsck", "-fn", device) or not shutil.which("e2fsck"), "a file system is damaged")
    if shutil.which("dmsetup") and dmsetup_makes(device, size // SECTOR):
        try:
            refused(device, IN_USE, "of a device that another is made of", "--erase")
        finally:
            succeeds("dmsetup", "remove", "check-system-%d" % os.getpid())
    if succeeds("mkswap", device) and succeeds("swapon", device):
        try:
            for path in [device, node, room.path("disk")]:
                refused(path, IN_USE, "of a device that is swapped to", "--erase")
        finally:
            succeeds("swapoff", device)
    room.done("format", "--in-place", "--erase", device, "64", room.key_file)


def dmsetup_makes(device, sectors):
    return succeeds("dmsetup", "create", "check-system-%d" % os.getpid(), "--table",
                    "0 %d linear %s 0" % (sectors, device))


@scene
def openings_never_wait(room):
    """A pipe, a terminal, a socket or a folder in place of a store is refused at once."""
    room.seconds = 20
    store = room.store("store", payloads_of("store", 3))
    os.mkfifo(room.path("pipe"))
    os.mkdir(room.path("dir"))
    _, terminal = pty.openpty()
    listener = socket.socket(socket.AF_UNIX, socket.SOCK_STREAM)
    listener.bind(room.path("bound"))
    for path in [room.path("pipe"), os.ttyname(terminal), room.path("bound"), room.path("dir"), "/dev/null"]:
        expect(room.run("format", path, "64", room.key_file), FILE_EXISTS, "format of %s" % path)
        expect(room.run("rotate", store, path, "64", room.key_file), FILE_EXISTS, "rotate to %s" % path)
        for words in [("format", "--in-place", path, "64", room.key_file),
                      ("format", "--in-place", "--erase", path, "64", room.key_file),
                      ("append", path), ("append", "--follow", path), ("close", path), ("show", path),
                      ("show", "--read-only", path),
                      ("show", "--header", path), ("export", path, room.path("made")),
                      ("export", "--salvage", path, room.path("made")), ("prove", path, "member", "0", "1", "-"),
                      ("rotate", path, room.path("new"), "64", room.key_file),
                      ("serve", path, room.path("socket"), "1"),
                      ("loop", path, room.path("socket")), ("daemon", path, room.path("socket"))]:
            expect(room.run(*words), FILE_FAULT, "%s of %s" % (" ".join(words[:2]), path))
    listener.close()
    os.close(terminal)
    expect(room.payloads(store), payloads_of("store", 3), "the store after all")


@scene
def large_blocks_are_warned_of(room):
    """After a format, and then alone, a line on request says that the disk writes blocks that it may tear: of a device
    with such blocks, and of a file on one, but not if the blocks are sectors."""
    for size in 512, 4096:
        with open(room.path("disk"), "wb") as file:
            file.truncate(64 * SECTOR)
        with loop_device(room.path("disk"), "--sector-size", str(size)) as device:
            if device is None:
                return
            words = "--in-place", "--erase", "--explain", device, "64", room.key_file
            expect_torn_blocks(room.whole("format", *words), device, size)
            expect(room.whole("show", "--explain", device)[2], b"", "messages of show")
            expect(room.whole("format", "--in-place", device, "64", room.key_file), FILE_EXISTS,
                   "format of a store")
    expect(room.whole("format", "--in-place", "--erase", room.path("disk"), "64", room.key_file)[2], b"",
           "messages that nobody asked for")
    expect_torn_blocks(room.whole("format", "--explain", room.path("file"), "64", room.key_file), room.path("file"),
                       blocks_under(room.folder))


def expect_torn_blocks(found, name, size):
    """What a format printed, of a file on a disk with blocks of this size."""
    status, output, messages = found
    expect((status, output), (0, b"formatted 64\n"), "format of %s" % name)
    line = re.fullmatch(TORN_BLOCKS, messages)
    expect(line and (line[1].decode(), int(line[2])), (name, size) if size > SECTOR else None,
           "the line about blocks of %d bytes: %r" % (size, messages))


def blocks_under(folder):
    """The size of the blocks that the disk under a folder writes, if it may tear them; else that of a sector."""
    number = os.stat(folder).st_dev
    place = "/sys/dev/block/%d:%d" % (os.major(number), os.minor(number))
    queue = place + "/queue" if os.path.exists(place + "/queue") else place + "/../queue"
    sizes = []
    for name in "physical_block_size", "atomic_write_unit_max_bytes":
        try:
            sizes.append(int(read(os.path.join(queue, name))))
        except FileNotFoundError:
            sizes.append(0)
    return sizes[0] if sizes[0] > max(SECTOR, sizes[1]) else SECTOR
