"""Searches of random damaged stores with their first key, by the program, against the model's. Sectors are changed,
zeroed, exchanged, overwritten by those of another log or cut off, headers are lost, and some entries are shown by
proofs. One store has sectors that can't be read, where nbdkit, nbdfuse and fusermount3 are installed (Debian's nbdkit,
nbdkit-plugin-python, libnbd-bin and fuse3).

usage: bin/check salvaged EXECUTABLE [STORES [FIRST]]

There are 300 stores unless STORES is given. They are numbered from FIRST on, by default 0, and the same number gives
the same store.
"""
import os
import random
import stat
import subprocess
import tempfile

from checks.parts.files import read, write
from checks.parts.program import run
from checks.parts.scenes import program_of
from checks.parts.tools import missing
from checks.parts.waiting import wait_for
from checks.parts.wrong import Usage, expect
from history import leaf_hash
from model import search, tree
from model.chain import CLOSE, ZERO_KEY, log_of
from model.disk import LOG_START, SECTOR, cut, end_of, image_of

KINDS = 1, 2, 7, 4294967294
MOST_EVENTS = 24
LENGTHS = 0, 1, 16, 400, 440, 441, 900, 3000
TOOLS = ["nbdkit", "nbdfuse", "fusermount3"]
# How many sectors the kernel reads as one.
PAGE = 8
PLUGIN = os.path.join(os.path.dirname(os.path.abspath(__file__)), "parts", "bad_sectors.py")


def log_by(chance, first_key=ZERO_KEY):
    events = [(chance.choice(KINDS), chance.randbytes(chance.choice(LENGTHS)))
              for _ in range(chance.randint(1, MOST_EVENTS))]
    return log_of(events + [CLOSE] if chance.random() < 0.2 else events, first_key)


def flipped(chance, image, at):
    sector = bytearray(image[at])
    sector[chance.randrange(SECTOR)] ^= 1 << chance.randrange(8)
    image[at] = bytes(sector)


def damaged(chance, image, end):
    """A copy of an image with damage of each kind, and some of it at random."""
    image, other = list(image), image_of(log_by(chance, b"\1" * 32), 3, len(image) + 300)
    for _ in range(chance.choice((0, 1, 1, 2, 3, 6))):
        at = chance.randrange(LOG_START, max(end, LOG_START + 1))
        how = chance.choice(("flip", "flip", "zero", "noise", "other", "exchange"))
        if how == "flip":
            flipped(chance, image, at)
        elif how == "exchange":
            beside = chance.randrange(LOG_START, end)
            image[at], image[beside] = image[beside], image[at]
        else:
            for hole in range(at, min(at + chance.randint(1, 5), len(image))):
                image[hole] = {"zero": bytes(SECTOR), "noise": chance.randbytes(SECTOR), "other": other[hole]}[how]
    if chance.random() < 0.2:
        image[chance.randrange(2)] = chance.choice((bytes(SECTOR), chance.randbytes(SECTOR)))
    return image[:chance.randrange(LOG_START, len(image))] if chance.random() < 0.1 else image


class Case:
    """A store that is damaged, and proofs of some of its entries."""

    def __init__(self, number):
        self.chance = random.Random(number)
        self.log = log_by(self.chance)
        end = end_of(self.log)
        whole = image_of(self.log, self.chance.choice((3, 4)), end + self.chance.randint(0, 5))
        self.image = damaged(self.chance, whole, end)
        self.within = self.chance.choice((search.WITHIN, search.WITHIN, 1, 2, 5))
        self.proofs = sorted(self.chance.sample(range(len(self.log.entries)), min(2, len(self.log.entries))))

    def words(self):
        """Writes the proofs, and returns the words that name them."""
        words = []
        for index in self.proofs if self.chance.random() < 0.5 else []:
            leaves = self.log.leaves
            write("proof%d" % index, tree.membership_proof(index, len(leaves), tree.membership(leaves, index),
                                                          self.log.entries[index]))
            words += ["--proof", "proof%d" % index]
        root = tree.root(self.log.leaves).hex()
        return (["--under", "%d:%s" % (len(self.log.leaves), root)] if words else []) + words

    def check(self):
        write("store", b"".join(self.image))
        words = self.words()
        proved = [(index, leaf_hash(self.log.entries[index])) for index in self.proofs] if words else []
        wanted, last, status = search.text(self.image, ZERO_KEY, proved, self.within)
        limit = [] if self.within == search.WITHIN else ["--within", str(self.within)]
        expect(run("salvage", "store", "first", "out", *limit, *words), (status, last.encode(), b""), "the last line")
        expect(read("out").decode(), wanted, "what is found")
        expect(stat.S_IMODE(os.stat("out").st_mode), 0o600, "the mode of what is found")
        expect(run("salvage", "store", "first", "-", *limit, *words), (status, (wanted + last).encode(), b""),
               "the same to standard output")
        expect(read("store"), b"".join(self.image), "the store")


def check_unread(number):
    """A store some of whose sectors can't be read, and with each its page, which the kernel reads as one."""
    chance = random.Random(number)
    log = log_of([(chance.choice(KINDS), chance.randbytes(chance.choice(LENGTHS))) for _ in range(60)])
    image = image_of(log, 4, end_of(log) + 8)
    pages = {at // PAGE for at in chance.sample(range(PAGE, end_of(log)), 4)} | set(chance.choice(([], [0])))
    bad = [at for at in range(len(image)) if at // PAGE in pages]
    write("disk", b"".join(image))
    os.mkdir("mounted")
    server = subprocess.Popen(["nbdkit", "--foreground", "--unix", os.path.abspath("socket"), "python", PLUGIN,
                               "image=" + os.path.abspath("disk"), "bad=" + ",".join(map(str, bad))],
                              stderr=subprocess.DEVNULL)
    wait_for(lambda: os.path.exists("socket"), "the disk")
    fuse = subprocess.Popen(["nbdfuse", "mounted/disk", "nbd+unix:///?socket=" + os.path.abspath("socket")],
                            stderr=subprocess.DEVNULL)
    try:
        wait_for(lambda: os.path.exists("mounted/disk"), "the disk's file")
        known = [None if at in bad else sector for at, sector in enumerate(image)]
        wanted, last, status = search.text(known, ZERO_KEY)
        expect(run("salvage", "mounted/disk", "first", "out"), (status, last.encode(), b""), "with bad sectors")
        expect(read("out").decode(), wanted, "what is found between bad sectors")
    finally:
        subprocess.run(["fusermount3", "-u", "-z", "mounted"], stderr=subprocess.DEVNULL)
        for process in (fuse, server):
            process.kill()
            process.wait()
        os.rmdir("mounted")
        os.remove("socket")


def main(words):
    words = program_of(words, most=2)
    if not all(word.isdigit() for word in words):
        raise Usage
    count, first = [*map(int, words), *(300, 0)[len(words):]]
    with tempfile.TemporaryDirectory(prefix="salvaged-") as folder:
        os.chdir(folder)
        write("first", b"%064d\n" % 0)
        os.chmod("first", 0o600)
        for number in range(first, first + count):
            Case(number).check()
        lacking = missing(TOOLS)
        if lacking:
            print("left out: sectors that can't be read: there is no " + ", ".join(lacking))
        else:
            for number in range(3):
                check_unread(number)
    return 0
