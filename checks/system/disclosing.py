"""The file of a disclosure: it is its owner's alone, and whole, or there is none; and it replaces nothing."""
import os

from checks.parts import program
from checks.parts.files import mode_of, read, write
from checks.parts.logs import payloads_of
from checks.parts.program import FILE_EXISTS, FILE_FAULT
from checks.parts.scenes import scene
from checks.parts.tools import succeeds
from checks.parts.wrong import expect, expect_true

# The most bytes of a disclosure that is read. The indices of so many events have at most six digits.
MOST = 1 << 24
TOO_LONG = 1, b"", b"audit: input too long\n"


def exported(room, name, payloads, sectors=200):
    """The export of a store with these events, the first key, and the commitment to them."""
    store, export = room.store(name, payloads, sectors), room.path(name + ".export")
    room.done("export", store, export)
    return export, room.key_file, room.commitment_word(store)


@scene
def disclosures_are_whole_or_none(room):
    """OUT of `disclose` is a new file of mode 0600 with all keys, or there is none."""
    export, key, committed = exported(room, "store", payloads_of("disclosed", 30))
    out = room.path("out")

    def disclose(*words, **how):
        return room.run("disclose", export, key, committed, out, "--events", "0-99", *words, **how)

    for umask in 0, 0o22, 0o77:
        expect(disclose(umask=umask), (0, b"disclosed 30 30\n", b""), "a disclosure")
        expect(mode_of(out), 0o600, "the mode of a disclosure under the umask %o" % umask)
        whole = read(out)
        expect(disclose(), FILE_EXISTS, "a disclosure to a file that is there")
        expect(read(out), whole, "a disclosure that was there")
        os.remove(out)
    write(room.path("kept"), whole)
    expect(room.done("verify", export, room.path("kept"), committed, "--disclosed"),
           room.done("verify", export, key, committed).replace(b"verified", b"matched"), "an export by all its keys")

    expect(disclose(file_size=100), FILE_FAULT, "a disclosure past the limit of a file")
    expect_true(not os.path.lexists(out), "a part of a disclosure past the limit of a file is left")
    expect_none_on_full_disk(room, export, key, committed)
    # The line can't be written: the file is there.
    with open("/dev/full", "wb") as full:
        expect(disclose(stdout=full), FILE_FAULT, "a disclosure whose line can't be written")
    expect(read(out), whole, "a disclosure whose line couldn't be written")
    expect_nothing_replaced(room, export, key, committed)


def expect_none_on_full_disk(room, export, key, committed):
    disk = room.path("disk")
    os.mkdir(disk)
    if os.geteuid() == 0 and succeeds("mount", "-t", "tmpfs", "-o", "size=4k", "tmpfs", disk):
        try:
            write(disk + "/filler", bytes(4096))
            expect(room.run("disclose", export, key, committed, disk + "/out", "--events", "0-99"), FILE_FAULT,
                   "a disclosure onto a full disk")
            expect(os.listdir(disk), ["filler"], "a full disk after a disclosure")
        finally:
            succeeds("umount", disk)


def expect_nothing_replaced(room, export, key, committed):
    """What is at OUT stays: a store, the export, the key, a link, a folder or a device."""
    os.symlink("nowhere", room.path("link"))
    os.mkfifo(room.path("pipe"))
    for out in [export, key, room.path("store"), room.path("link"), room.path("pipe"), room.folder, "/dev/null"]:
        before = os.path.isfile(out) and read(out)
        expect(room.run("disclose", export, key, committed, out, "--kind", "1"), FILE_EXISTS, "a disclosure to " + out)
        expect(os.path.isfile(out) and read(out), before, "what is at %s after a disclosure" % out)
    expect_true(os.path.islink(room.path("link")) and not os.path.exists(room.path("nowhere")), "a link is followed")
    expect(room.run("disclose", export, key, committed, room.path("no/folder"), "--kind", "1"), FILE_FAULT,
           "a disclosure to a folder that isn't there")


@scene
def disclosures_of_pipes(room):
    """An export that can't be read twice is kept: its verdict, and what is shown of it, are those of a file."""
    export, key, committed = exported(room, "store", payloads_of("piped", 9))
    kept, data = room.path("kept"), read(export)
    room.done("disclose", export, key, committed, kept, "--events", "2,5")
    shown = room.done("verify", export, kept, committed, "--disclosed")
    for cut in [data, data[:-1], data[:-100], b"", data + b"\0", data[:9] + b"\0" + data[10:]]:
        write(room.path("cut"), cut)
        for words in [("disclose", key, committed, room.path("out"), "--events", "2,5"),
                      ("verify", kept, committed, "--disclosed")]:
            answers = []
            for path, given in ((room.path("cut"), b""), ("/dev/stdin", cut)):
                answers.append((room.run(words[0], path, *words[1:], given=given), read_if_any(room.path("out"))))
            expect(answers[1], answers[0], "%s of a pipe" % words[0])
    expect(room.run("verify", "/dev/stdin", kept, committed, "--disclosed", given=data), (0, shown, b""), "a pipe")
    found = room.run("verify", export, "/dev/stdin", committed, "--disclosed", given=read(kept))
    expect(found, (0, shown, b""), "a disclosure through a pipe")


def read_if_any(path):
    """The bytes of a file, which is removed; nothing if there is none."""
    if not os.path.exists(path):
        return None
    data = read(path)
    os.remove(path)
    return data


@scene
def disclosures_that_are_too_long(room):
    """More keys than are read again aren't written. That takes a log of 222,215 events: without --long it is left out, as
    it is for an executable of the toolchain's own compiler or of bin/try."""
    if not room.is_long or program.is_by_rattle() or program.is_unproved():
        return
    count, size = 0, 0
    while size <= MOST:
        size += len("key %d %064d\n" % (count, 0))
        count += 1
    export, key, committed = exported(room, "many", [b""] * count, count + 3)
    out = room.path("out")
    asked = "disclose", export, key, committed, out, "--events"
    expect(room.run(*asked, "0-%d" % (count - 1)), TOO_LONG, "a disclosure that is too long")
    expect_true(not os.path.lexists(out), "a disclosure that is too long is made")
    said = b"disclosed %d %d\n" % (count - 1, count)
    expect(room.run(*asked, "0-%d" % (count - 2)), (0, said, b""), "a long disclosure")
    expect_true(MOST - 80 < os.path.getsize(out) <= MOST, "the size of a long disclosure")
    lines = room.done("verify", export, out, committed, "--disclosed").splitlines()
    expect(lines[-2:], [b"sealed %d 1 0" % (count - 1), b"matched %d open" % count], "the end of what it shows")
    expect_true(all(line.startswith(b"event ") for line in lines[:-2]), "an event of a long disclosure is sealed")
