"""What the tools know of links between logs (docs/formats.md), without a key: the commitment to the two entries with which
a log goes on, the verdict of `audit check --link`, and what the header of a store says."""
import hashlib
import os
import re
import stat
import subprocess

COMMITMENT = re.compile(r"(0|[1-9][0-9]{0,7}):([0-9a-f]{64})")
HEADER = re.compile(r"commit ([0-9]+) ([0-9a-f]{64})\n.* state (open|closed)\n")
MARK, MOST_HASHES, FIXED, OVERHEAD = 3, 24, 130, 72
# The longest link: all hashes, and two entries of the longest payload.
MOST = FIXED + 32 * MOST_HASHES + 2 * (OVERHEAD + 32696)


class NoLink(Exception):
    """Why a file is no link."""


def bytes_of(path):
    """The bytes of a file that may be a link. One that isn't a regular file is not waited for."""
    with open(os.open(path, os.O_RDONLY | os.O_NONBLOCK | os.O_CLOEXEC), "rb") as file:
        if not stat.S_ISREG(os.fstat(file.fileno()).st_mode):
            raise NoLink("is no regular file")
        return file.read(MOST + 1)


def entry_in(data):
    """The entry with which the bytes begin."""
    length = OVERHEAD + int.from_bytes(data[4:8], "big")
    if len(data) < max(length, OVERHEAD):
        raise NoLink("is no link")
    return data[:length]


def commitment_to_pair(path):
    """The commitment to the first two entries of the log to which a link leads, as a word."""
    data = bytes_of(path)
    if len(data) < FIXED or data[0] != MARK or data[1] > MOST_HASHES:
        raise NoLink("is no link")
    entries = data[FIXED + 32 * data[1]:]
    first = entry_in(entries)
    second = entry_in(entries[len(first):])
    if len(first) + len(second) != len(entries):
        raise NoLink("is no link")
    leaves = [hashlib.sha256(b"\0" + entry).digest() for entry in (first, second)]
    return "2:" + hashlib.sha256(b"\1" + b"".join(leaves)).hexdigest()


def answered(*words):
    """How the program ends, and what it prints."""
    ended = subprocess.run([os.environ.get("AUDIT", "audit"), *words], stdin=subprocess.DEVNULL, capture_output=True,
                           text=True)
    return ended.returncode, ended.stdout, ended.stderr.strip().split("\n")[0].removeprefix("audit: ")


def verdict(link, old, new):
    """What the program says of a link: `accepted`, or which half isn't so."""
    status, output, said = answered("check", link, old, new, "--link")
    if status not in (0, 1):
        raise OSError("%s: %s" % (link, said))
    return output.strip() or said


def header_of(store):
    """The count, the root and the state of a store, or None if there is none."""
    if not os.path.lexists(store):
        return None
    status, output, said = answered("show", store, "--header")
    found = HEADER.fullmatch(output) if status == 0 else None
    if found is None:
        raise OSError("%s: %s" % (store, said))
    return found[1], found[2], found[3]
