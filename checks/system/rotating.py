"""`rotate` that is killed and run again."""
import os
import random
import signal
import threading
import time

from checks.parts import logs
from checks.parts.files import mode_of, read, temporary_names, write
from checks.parts.logs import payloads_of
from checks.parts.program import FILE_FAULT, IN_USE, SECONDS
from checks.parts.scenes import scene
from checks.parts.waiting import wait_listening
from checks.parts.wrong import expect, expect_true
from checks.system.common import active_header
from model import disk
from model.disk import cut
from read_export import sha256


@scene
def rotations_survive_kills(room):
    """`rotate` is killed at random moments and run again until it succeeds: the old store is closed, the new one begins
    with its last commitment, and nothing is done twice. What can't be rotated stays as it was."""
    key_file = room.path("next.key")
    write(key_file, sha256(b"next").hex().encode())
    os.chmod(key_file, 0o600)
    _, whole = expect_rotated(room, key_file, 0, 0)
    kills, number = 0, 0
    while kills < (200 if room.is_long else 10):
        number += 1
        more, whole = expect_rotated(room, key_file, number, whole)
        kills += more
    expect_not_rotated(room, key_file)


def expect_rotated(room, key_file, number, whole):
    """Rotates a store, killing the program up to three times within `whole` seconds, if these are given, and returns
    the number of kills, and how long a rotation takes that isn't killed."""
    payloads = payloads_of("event", 1 + number % 4)
    old, new = room.store("old%d" % number, payloads, 10), room.path("new%d" % number)
    words = ("rotate", old, new, "2000", key_file)
    kills, status = 0, None
    while status != 0:
        begun = time.monotonic()
        process = room.start(*words)
        if whole and kills < 3:
            threading.Timer(random.uniform(0, whole), process.kill).start()
        output, messages = process.communicate(timeout=SECONDS)
        status, seconds = process.returncode, time.monotonic() - begun
        expect_true((status, messages) in ((0, b""), (-signal.SIGKILL, b"")),
                    "a rotation ends with %r" % ((status, messages),))
        kills += status != 0
        expect(room.payloads(old) in (payloads, payloads + [b""]), True, "the old store after a kill")
        if os.path.exists(new):
            expect_link(room, new, key_file, room.commitment(old))
        else:
            expect(status, -signal.SIGKILL, "the status of a rotation without a new store")
    count, root = room.commitment(old)
    expect(count, len(payloads) + 1, "the events of the old store and the closing one")
    expect_true(b" state closed" in room.done("show", old), "the old store isn't closed")
    _, first_root = room.commitment(new)
    lines = b"closed %d %s\nformatted 2000\nack 0 1 %s\n" % (count, root.encode(), first_root.encode())
    expect(output, lines, "the lines of a rotation")
    before = read(old), read(new)
    expect(room.done(*words), lines, "the lines of a rotation that was done")
    expect((read(old), read(new)), before, "the stores after they were found")
    expect(temporary_names(room.folder), [], "what rotations leave")
    expect(mode_of(new), 0o600, "the mode of a new store")
    room.end()
    return kills, whole if kills else seconds


def expect_link(room, new, key_file, commitment):
    """The first and only event of a new store is the last commitment of the old one, under the new first key."""
    data = read(new)
    entries = disk.walked(cut(data), active_header(data))
    expect(len(entries), 1, "the entries of a new store")
    expect(room.commitment(new), (1, logs.root(entries).hex()), "the commitment of a new store")
    room.done("export", new, room.path("new.export"))
    lines = room.done("verify", room.path("new.export"), key_file, "1:%s" % room.commitment(new)[1])
    payload = "%d:%s" % commitment
    expect(lines, b"event 0 0 %s\nverified 1 open\n" % payload.encode().hex().encode(),
           "the first event of a new store")


def expect_not_rotated(room, key_file):
    """Stores that can't be rotated stay as they were, and nothing is made."""
    full = room.store("full", payloads_of("full", 2), 4)
    old = room.store("kept", payloads_of("kept", 2), 10)
    write(room.path("other"), b"a file of somebody else")
    other = room.store("other.store", payloads_of("other", 1), 5)
    before = {path: read(path) for path in (full, old, other, room.path("other"))}
    os.symlink("nowhere", room.path("dangling"))
    os.mkdir(room.path("folder"))
    os.mkdir(room.path("folder/none.rotate.tmp"))
    names = sorted(os.listdir(room.folder))
    exists = (1, b"", b"audit: file exists\n")
    for words, wanted in [
            ((full, "none", "5"), (1, b"", b"audit: 7 Full\n")), ((old, "none", "2"), (1, b"", b"audit: 14 BadSize\n")),
            ((old, "other", "5"), exists), ((old, other, "5"), exists), ((old, room.folder, "5"), exists),
            ((old, "dangling", "5"), exists), ((old, "folder/none", "5"), exists),
            ((old, old, "5"), (2, b"", b"audit: bad argument\n"))]:
        expect(room.run("rotate", *words, key_file), wanted, "rotate " + " ".join(words))
    # A new store that can't be made leaves the old log open.
    expect(room.run("rotate", old, "none", "2000", key_file, file_size=100000), FILE_FAULT,
           "rotate without room for NEW")
    expect(room.run("rotate", old, "missing/none", "5", key_file), FILE_FAULT, "rotate to a folder that isn't there")
    daemon = room.start("daemon", old, room.path("socket"))
    wait_listening(room.path("socket"), daemon)
    expect(room.run("rotate", old, "none", "5", key_file), IN_USE, "rotate beside a daemon")
    room.done("stop", room.path("socket"))
    daemon.wait(SECONDS)
    expect({path: read(path) for path in before}, before, "the stores that were not rotated")
    expect(sorted(os.listdir(room.folder)), names, "the files beside them")
