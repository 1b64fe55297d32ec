"""OUT, which is whole or as it was, and which replaces no store."""
import contextlib
import fcntl
import os
import signal
import stat
import subprocess

from checks.parts.files import read, temporary_names, write
from checks.parts.logs import payloads_of
from checks.parts.program import FILE_EXISTS, FILE_FAULT, SECONDS
from checks.parts.rooms import NOBODY, outcome
from checks.parts.scenes import scene
from checks.parts.tools import succeeds
from checks.parts.waiting import wait_listening, wait_until
from checks.parts.wrong import expect, expect_true
from checks.system.common import loop_device, read_pipe, shared_copy
from model.disk import SECTOR


@scene
def outputs_are_whole_or_as_they_were(room):
    """After a command, OUT has either its whole output or its previous contents."""
    store = room.store("store", payloads_of("output", 30))
    count = room.commitment(store)[0]
    exported = room.path("export")
    said = room.done("export", store, exported)
    whole = read(exported)
    expect(said, b"exported %d %d\n" % (count, len(whole)), "export")
    member = ["member", "3", str(count)]
    room.done("prove", store, *member, room.path("proof"))
    proof = read(room.path("proof"))

    expect_store_spared(room, store, member)

    # The output replaces the file that the link leads to, and no other.
    write(room.path("target"), b"old")
    os.symlink("target", room.path("leads"))
    expect(room.run("export", store, room.path("leads"))[0::2], (0, b""), "an export to a link")
    expect(read(room.path("leads")), whole, "an export to a link")

    expect(room.run("export", store, "-"), (0, whole, b""), "export to -")
    expect(room.run("prove", store, *member, "-"), (0, proof, b""), "prove to -")
    expect_true(not os.path.exists(room.path("-")), "a file named -")
    expect(room.run("export", store, "/dev/null"), (0, said, b""), "export to /dev/null")
    expect(room.run("export", store, "/dev/stdout"), (0, whole + said, b""), "export to /dev/stdout, a pipe")
    os.mkfifo(room.path("pipe"))
    writer = room.start("export", store, room.path("pipe"))
    expect(read_pipe(room.path("pipe"), writer), whole, "export to a pipe")
    expect(outcome(writer), (0, said, b""), "export to a pipe")
    expect(room.run("export", store, "/dev/full"), FILE_FAULT, "export to /dev/full")
    expect(room.run("prove", store, *member, "/dev/full"), FILE_FAULT, "prove to /dev/full")
    expect(room.run("export", store, room.path("no/folder")), FILE_FAULT, "export to a folder that isn't there")
    expect(room.run("export", store, room.folder), FILE_FAULT, "export to a folder")

    expect_kept_in_part(room, store, exported, member)

    expect_whole_while_written(room)


def expect_store_spared(room, store, member):
    """No output replaces the store that it is of, by whatever name."""
    os.symlink(store, room.path("link"))
    os.link(store, room.path("hard"))
    before = read(store)
    for out in [store, "store", "./store", room.path("link"), room.path("hard"), "/proc/self/cwd/store"]:
        expect(room.run("export", store, out), FILE_EXISTS, "an export to the store as %s" % out)
        expect(room.run("export", "--read-only", store, out), FILE_EXISTS,
               "an export --read-only to the store as %s" % out)
        expect(room.run("prove", store, *member, out), FILE_EXISTS, "a proof to the store as %s" % out)
        expect_true(read(store) == before, "the store is changed by an output to %s" % out)


def expect_kept_in_part(room, store, exported, member):
    """Where only a part of the output can be written OUT stays as it was."""
    # Only part of the output can be written.
    write(exported, b"an old export")
    for words in [("export", "--read-only", store, exported), ("prove", "--read-only", store, *member, exported)]:
        names = sorted(os.listdir(room.folder))
        expect(room.run(*words, file_size=100), FILE_FAULT, "%s past the limit of a file" % words[0])
        expect(read(exported), b"an old export", "what %s past the limit of a file left" % words[0])
        expect(sorted(os.listdir(room.folder)), names, "the folder after %s past the limit of a file" % words[0])
    disk = room.path("disk")
    os.mkdir(disk)
    if os.geteuid() == 0 and succeeds("mount", "-t", "tmpfs", "-o", "size=64k", "tmpfs", disk):
        try:
            write(disk + "/export", b"an old export")
            with contextlib.suppress(OSError), open(disk + "/filler", "wb", 0) as filler:
                while True:
                    filler.write(bytes(1 << 10))
            for words in [("export", store, disk + "/export"), ("export", store, disk + "/new")]:
                expect(room.run(*words), FILE_FAULT, "export onto a full disk")
                expect(read(disk + "/export"), b"an old export", "what an export onto a full disk left")
                expect(sorted(os.listdir(disk)), ["export", "filler"], "a full disk after an export")
        finally:
            succeeds("umount", disk)


def expect_whole_while_written(room):
    """While an export is written OUT has its previous contents, or all."""
    entries = 200 if room.is_long else 12
    large = room.store("large", [b"%032696d" % number for number in range(entries)], sectors=64 * entries + 2)
    target = room.path("large.export")
    write(target, b"old")
    writer = room.start("export", large, target)
    seen = set()
    while writer.poll() is None:
        seen.add(len(read(target)))
    seen.add(len(read(target)))
    expect_true(outcome(writer)[0] == 0 and seen <= {3, entries * 32768},
                "sizes of an export while it is written: %s" % sorted(seen))


@scene
def outputs_replace_no_store(room):
    """No output, of whatever command, replaces a store, a block device, or what another program has locked."""
    ours = room.store("ours", payloads_of("ours", 4))
    other = room.store("other", payloads_of("other", 4))
    count, before = str(room.commitment(ours)[0]), read(other)
    second = os.urandom(SECTOR) + before[SECTOR:]
    write(room.path("second"), second)
    os.symlink("other", room.path("link"))
    os.link(other, room.path("hard"))
    outs = {name: before for name in ["other", "link", "hard"]}
    outs["second"] = second

    def expect_spared(*words):
        for name, wanted in outs.items():
            found = room.run(*words, room.path(name))
            expect_true(read(room.path(name)) == wanted, "%s replaces a store at %s" % (words[0], name))
            expect(found, FILE_EXISTS, "%s to a store at %s" % (words[0], name))
        expect(temporary_names(room.folder), [], "what %s leaves" % words[0])

    for words in [("export", ours), ("export", "--read-only", ours), ("prove", ours, "member", "1", count),
                  ("export", "--salvage", ours)]:
        expect_spared(*words)
    expect_answers_spare(room, ours, other, count)
    expect_locked_is_spared(room, ours)
    expect_late_store_is_spared(room)
    expect_devices_spared(room, ours)
    if os.geteuid() == 0:
        # What can't be read may be a store.
        folder = room.path("shared")
        os.mkdir(folder)
        os.chmod(folder, 0o777)
        room.executable = shared_copy(room)
        for name in [room.folder, ours]:
            os.chmod(name, 0o777)
        room.copy(other, "shared/other")
        os.chmod(folder + "/other", 0o600)
        expect(room.run("export", ours, folder + "/other", user=NOBODY), FILE_FAULT,
               "an export to a file that can't be read")
        expect_true(read(folder + "/other") == before, "an export replaces a file that can't be read")


def expect_devices_spared(room, ours):
    """An export to a block device is refused."""
    write(room.path("disk"), bytes(64 * SECTOR))
    with loop_device(room.path("disk")) as device:
        if device:
            os.mknod(room.path("node"), 0o600 | stat.S_IFBLK, os.stat(device).st_rdev)
            for out in [device, room.path("node")]:
                expect(room.run("export", ours, out), FILE_EXISTS, "an export to a block device")
                expect_true(stat.S_ISBLK(os.stat(out).st_mode), "an export replaces a block device")
            expect_true(not any(read(room.path("disk"))), "an export writes to a block device")


def expect_answers_spare(room, ours, other, count):
    """Nothing that a server is asked for replaces the store that it serves, or another."""
    server = room.start("daemon", ours, room.path("daemon"), stdin=subprocess.DEVNULL)
    wait_listening(room.path("daemon"), server)
    stores = {out: read(out) for out in (ours, other)}
    for out, wanted in stores.items():
        for question in [("export",), ("entry", "1"), ("member", "1", count)]:
            expect(room.run("ask", room.path("daemon"), *question, out), FILE_EXISTS, "ask %s to a store" % question[0])
            expect_true(read(out) == wanted, "ask %s replaces a store" % question[0])
        room.run("watch", room.path("daemon"), out)
        expect_true(read(out) == wanted, "watch replaces a store")
    room.done("stop", room.path("daemon"))
    expect(server.wait(SECONDS), 0, "the daemon's status")


def expect_locked_is_spared(room, ours):
    for how in (fcntl.LOCK_EX, fcntl.LOCK_SH):
        write(room.path("locked"), b"old")
        with open(room.path("locked"), "rb") as locked:
            fcntl.flock(locked, how)
            expect(room.run("export", ours, room.path("locked")), FILE_EXISTS, "an export to a locked file")
            expect(read(room.path("locked")), b"old", "an export to a locked file")
        expect(room.run("export", ours, room.path("locked"))[0], 0, "an export to a file that isn't locked any more")


def expect_late_store_is_spared(room):
    """A store that comes to OUT while it is written stays."""
    large = room.store("large", [b"%032696d" % number for number in range(12)], sectors=64 * 12 + 2)
    out, late = room.path("out"), read(room.store("late", payloads_of("late", 2)))
    for _ in range(room.tries()):
        with contextlib.suppress(FileNotFoundError):
            os.remove(out)
        writer = room.start("export", large, out)
        wait_until(lambda: os.path.exists(out + ".0.tmp") or writer.poll() is not None, "no temporary file")
        writer.send_signal(signal.SIGSTOP)
        if not os.path.exists(out):
            write(out, late)
            writer.send_signal(signal.SIGCONT)
            expect(outcome(writer), FILE_EXISTS, "an export to a store that came meanwhile")
            expect_true(read(out) == late, "an export replaces a store that came meanwhile")
            return
        writer.send_signal(signal.SIGCONT)
        outcome(writer)
