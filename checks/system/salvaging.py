"""Damaged stores, and very large ones."""
import fcntl
import os
import random
import struct

from checks.parts import logs
from checks.parts.files import read, write
from checks.parts.logs import event_lines
from checks.parts.program import FILE_FAULT, IN_USE
from checks.parts.scenes import scene
from checks.parts.wrong import expect, expect_true
from checks.system.common import active_header, make_sparse, unsettled
from model import disk, tree
from model.disk import SECTOR, cut
from read_export import sha256

# Opening a store past 4 GiB hashes all of it.
LARGE_SECONDS = 600


def opened(data):
    """The entries of a store, or None if opening it is refused."""
    try:
        return disk.opened(cut(data))[1].entries
    except disk.Damage:
        return None


@scene
def damaged_stores_are_salvaged(room):
    """From a damaged store the longest prefix of whole entries with the right links can be read."""
    payloads = [b"%d" % number * (number * 37 % 200) for number in range(40)] + [b"long" * 3000]
    base = room.store("base", payloads, sectors=300)
    out = room.path("out")
    whole = read(base)
    room.done("append", base, given=event_lines([b"one more"]))
    later = read(base)
    draw = random.Random(34)
    damaged = [later, whole, bytes(2 * SECTOR) + later[2 * SECTOR:], os.urandom(SECTOR) + later[SECTOR:],
               unsettled(room),
               whole[:SECTOR] + later[SECTOR:], later[:SECTOR] + whole[SECTOR:], later[:-4 * SECTOR],
               later + bytes(SECTOR), bytes(300 * SECTOR), later[:2 * SECTOR]]
    end = active_header(later).end
    add_flipped_bits(room, later, draw, damaged, end)
    answers = {expect_salvaged(room, number, data, out) for number, data in enumerate(damaged)}
    expect_true(len(answers) > 5 and len({status for status, _ in answers}) == 2,
                "the damage that was done is too much alike")
    write(room.path("damaged"), damaged[2])
    expect(room.run("export", "--salvage", room.path("damaged"), "-")[:2],
           (1, b"".join(disk.salvaged(cut(damaged[2])))), "salvage to -")
    expect(room.run("export", "--salvage", room.path("none"), out), FILE_FAULT, "salvage of no file")
    expect_odd_sizes_salvaged(room, out, damaged)


def expect_salvaged(room, number, data, out):
    """A store of these bytes is salvaged as the model does it, and isn't changed; the status, and how many entries."""
    store = room.path("damaged")
    write(store, data)
    write(out, b"old")
    entries = opened(data)
    what = "salvage of copy %d" % number
    found = room.run("export", "--salvage", store, out)
    if entries is not None:
        wanted = (0, b"exported %d %d\n" % (len(entries), len(b"".join(entries))), b"")
    else:
        entries = disk.salvaged(cut(data))
        wanted = (1, b"salvaged %d %s damaged %d\n" % (len(entries), logs.root(entries).hex().encode(),
                                                       len(entries)), b"")
    expect(found, wanted, what)
    expect_true(read(out) == b"".join(entries), "%s: other entries" % what)
    expect_true(read(store) == data, "%s changes the store" % what)
    # Opening agrees on whether the store is damaged.
    expect(room.run("show", "--read-only", store)[0] == 0, wanted[0] == 0, "show --read-only of copy %d" % number)
    return wanted[0], len(entries)


def add_flipped_bits(room, later, draw, damaged, end):
    """Copies of a store with a bit or two that are others."""
    for _ in range(400 if room.is_long else 25):
        copy = bytearray(later)
        for _ in range(draw.choice([1, 1, 2])):
            place = draw.choice([draw.randrange(2 * SECTOR), draw.randrange(2 * SECTOR, end * SECTOR),
                                 draw.randrange(2 * SECTOR, end * SECTOR), draw.randrange(len(copy))])
            copy[place] ^= 1 << draw.randrange(8)
        damaged.append(bytes(copy))


def expect_odd_sizes_salvaged(room, out, damaged):
    """Bytes after the last whole sector are left out, which is said in any case. Nothing else takes such a file."""
    # Bytes after the last whole sector are left out, which is said in any case. Nothing else takes such a file.
    first = damaged[0]
    for data, rest in [(first + b"junk", "4 bytes"), (first + b"x", "1 byte"), (first[:-1], "511 bytes"),
                       (first[:7 * SECTOR + 100], "100 bytes"), (b"", None),
                       (first[:100], "100 bytes")]:
        write(room.path("odd"), data)
        front = data[:len(data) - len(data) % SECTOR]
        write(room.path("front"), front)
        status, output, messages = room.run("export", "--salvage", room.path("front"), room.path("entries"))
        expect(messages, b"", "salvage of whole sectors")
        line = "audit: %s: left out after the last whole sector: %s\n" % (room.path("odd"), rest) if rest else ""
        line = line.encode()
        expect(room.run("export", "--salvage", room.path("odd"), out), (status, output, line),
               "salvage of %d bytes" % len(data))
        expect_true(read(out) == read(room.path("entries")) and read(room.path("odd")) == data,
                    "salvage of %d bytes gives other entries" % len(data))
        if rest:
            expect(room.run("show", room.path("odd")), FILE_FAULT, "show of %d bytes" % len(data))
            expect(room.run("export", "--read-only", room.path("odd"), out), FILE_FAULT,
                   "export of %d bytes" % len(data))
    write(room.path("odd"), first + b"junk")
    with open(room.path("odd"), "rb") as held:
        fcntl.flock(held, fcntl.LOCK_EX)
        expect(room.run("export", "--salvage", room.path("odd"), out), IN_USE,
               "salvage of a file that another program has locked")


@scene
def stores_go_past_4_gib(room):
    """A store of 9,000,000 sectors is opened, appended to past 4 GiB and queried. This takes a minute and 1.2 GB of
    disk, so only --long does it."""
    if not room.is_long:
        return
    room.seconds = LARGE_SECONDS
    sectors = 9_000_000
    count = (sectors - 200) // 64
    store = room.path("store")
    leaves, last, root = make_sparse(store, sectors, count)
    end = 2 + 64 * count
    expect_true(end * SECTOR > 1 << 32, "the store isn't large")
    shown = "commit %d %s\nsectors %d end %d generation 4 version 2 state open\n" % (count, root.hex(), sectors, end)
    expect(room.run("show", "--read-only", store), (0, shown.encode(), b""), "show --read-only of a large store")
    with open(store, "rb") as file:
        file.seek((end * SECTOR) % (1 << 32))
        wrapped = file.read(SECTOR)
        found = room.done("append", store, given=event_lines([b"past 4 GiB"]))
        expect(found.split()[:3], [b"ack", b"%d" % count, b"%d" % (count + 1)], "append to a large store")
        file.seek((end * SECTOR) % (1 << 32))
        expect_true(file.read(SECTOR) == wrapped, "an append past 4 GiB is written at its start")
        file.seek(end * SECTOR)
        entry = file.read(72 + 10)
    expect(entry[:8], struct.pack(">II", 1, 10), "the entry past 4 GiB")
    expect(entry[-64:-32], sha256(last, entry[8:-64], entry[:4]), "the link of the entry past 4 GiB")
    root = tree.root(leaves + [sha256(b"\0", entry)])
    expect(room.commitment(store), (count + 1, root.hex()), "the commitment of a large store")
    room.done("prove", store, "member", str(count), str(count + 1), room.path("proof"))
    expect(room.run("check", room.path("proof"), "%d:%s" % (count + 1, root.hex())), (0, b"accepted\n", b""),
           "a proof of the entry past 4 GiB")
    expect_true(read(room.path("proof")).endswith(entry), "the proof has another entry")
