"""What the scenes of clients share."""
import hashlib
import re
import time

from checks.parts.files import read
from checks.parts.logs import root
from checks.parts.program import TOO_LATE, done, run
from checks.parts.wrong import expect

# What is to end after a second has ended well before the program's own limit of 30 seconds.
SOON = 25
KEY = hashlib.sha256(b"a first key").hexdigest()
# A date as in a header of HTTP.
DATE = rb"[A-Z][a-z]{2}, \d\d [A-Z][a-z]{2} \d{4} \d\d:\d\d:\d\d GMT"


def alarm(word, held, given, state="state", path="own.sock"):
    """What a look gives that is contradicted: the commitments are words, as in STATE."""
    named = "audit: %s: %s: %s holds %s, the server gave %s\n" % (path, word.decode(), state, held, given)
    return 1, word + b"\n", (named + "audit: kept in %s.alarm\n" % state).encode()


def expect_alarms(path, *wanted):
    """The lines of STATE.alarm: each begins with the date at which it was found."""
    found = read(path).splitlines(keepends=True)
    expect(len(found), len(wanted), "the number of lines in " + path)
    for line, (word, held, given) in zip(found, wanted):
        form = DATE + b" " + re.escape(word + b": held %s, given %s\n" % (held.encode(), given.encode()))
        expect(re.fullmatch(form, line) is not None, True, "%r in %s" % (line, path))


def run_silenced(wanted, *words, data=b""):
    """The same for a command that a server leaves waiting, if that is what is wanted: then it waits for a second. Where
    what it prints before depends on the server, a machine with other work may need longer. Any other command waits as
    long as is usual."""
    if not wanted[2].startswith(TOO_LATE[2]):
        return run(*words, data=data)
    for limit in 1, 5, 20:
        found = run(*words, "--timeout", str(limit), data=data)
        if found == wanted:
            break
    return found


def run_soon(*words, data=b""):
    """The same for a command that waits for a second, and that has ended soon after."""
    begun = time.monotonic()
    found = run(*words, "--timeout", "1", data=data)
    taken = time.monotonic() - begun
    expect((taken >= 1, taken < SOON), (True, True), "%.1f seconds of %s" % (taken, " ".join(words)))
    return found


def store(sectors=8192):
    with open("key", "w") as file:
        file.write(KEY)
    done("format", "store", str(sectors), "key")


def lines(count, first=0):
    return b"".join(b"event %d %s\n" % (place % 5, b"%08x" % place) for place in range(first, first + count))


def expect_same_file(path, other):
    expect(read(path), read(other), path)


def single_of(line):
    """The size of a single entry, from the line that is printed for it."""
    return int(re.fullmatch(rb"exported 1 (\d+)\n", line).group(1))


ODD = "od\x1b[31m\n\x85\u202e\\d"
SHOWN = rb"od\x1b[31m\x0a\u0085\u202e\x5cd"


def expect_acknowledged(printed, entries, first=0):
    """Each printed line is the acknowledgement of its own event: the next index, and a commitment of the log."""
    roots = {}
    for place, line in enumerate(printed):
        word, index, count, hash = line.split()
        expect((word, int(index)), (b"ack", first + place), "acknowledgement %d" % place)
        count = int(count)
        if count not in roots:
            roots[count] = root(entries, count).hex().encode() if len(entries) < 3000 else hash
        expect((count > int(index), hash), (True, roots[count]), "the commitment of acknowledgement %d" % place)


def numbered(count, first=0):
    """Lines of events whose payloads are their numbers, in digits."""
    return b"".join(b"event 1 %s\n" % (b"%08d" % place).hex().encode() for place in range(first, first + count))
