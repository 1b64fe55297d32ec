"""Measures `audit append --follow --text` over a pipe: the lines of a real log are appended while they come, then
exported and verified, and the lines that `verify --text` prints must be those that were piped. It prints their rates,
and the most memory that each of the two programs took (VmHWM).

usage: bin/bench follow EXECUTABLE LOG [LINES]

LOG is a file, or - for this machine's journal and /var/log/*.log. LINES is 2000000 by default. If LOG has fewer, its
lines are repeated, each with a running number before it, and that is printed.
"""
import glob
import hashlib
import os
import re
import shutil
import subprocess
import tempfile
import threading
import time

from checks.bench.stores import fill
from checks.parts import program
from checks.parts.files import read
from checks.parts.program import done
from checks.parts.wrong import Usage, Wrong

SECTOR = 512
# The bytes that an event takes besides its payload, and the longest payload.
OVERHEAD, LONGEST = 72, 32696
HIDDEN = re.compile(rb"[\x00-\x08\x0a-\x1f\x7f\\]")


def log_of_this_machine():
    pieces = []
    if shutil.which("journalctl"):
        journal = ["journalctl", "--quiet", "--no-pager"]
        pieces.append(subprocess.run(journal, stdout=subprocess.PIPE, stderr=subprocess.DEVNULL).stdout)
    for name in sorted(glob.glob("/var/log/*.log")):
        pieces.append(read(name))
    return b"".join(pieces)


def lines_of(log, most):
    """The first lines of a log, or all of them again and again, and how many it has."""
    found = [line[:LONGEST - 20] for line in log.split(b"\n")[:most]]
    if found and found[-1] == b"":
        found.pop()
    if not found:
        raise Wrong("the log has no line")
    if len(found) == most:
        return found, most
    return [b"%d %s" % (number, found[number % len(found)]) for number in range(most)], len(found)


def printed(line):
    """A line as `verify --text` prints it."""
    return HIDDEN.sub(lambda byte: b"\\x%02x" % byte[0][0], line)


def make_store(executable, store, key, sectors):
    """A store whose sectors were written: a first write to a sparse file costs more."""
    with open(key, "w") as file:
        file.write("%064d\n" % 0)
    subprocess.run([executable, "format", store, str(sectors), key], check=True, stdout=subprocess.DEVNULL)
    fill(store, sectors)


def peak_of(process):
    """The most memory that a process took so far, in MB."""
    with open("/proc/%d/status" % process.pid) as file:
        for line in file:
            if line.startswith("VmHWM:"):
                return int(line.split()[1]) * 1024 / 1e6
    return 0.0


def fed(stream, lines):
    for first in range(0, len(lines), 1000):
        stream.write(b"".join(line + b"\n" for line in lines[first:first + 1000]))
    stream.flush()


def follow(executable, store, lines):
    """Pipes lines to a follower: the seconds until the last one was acknowledged, the number of batches, and its memory
    then."""
    begun = time.monotonic()
    words = [executable, "append", store, "--follow", "--text", "1"]
    process = subprocess.Popen(words, stdin=subprocess.PIPE, stdout=subprocess.PIPE)
    writer = threading.Thread(target=fed, args=(process.stdin, lines), daemon=True)
    writer.start()
    batches, last = 0, b""
    for last in process.stdout:
        batches += 1
        if int(last.split()[2]) == len(lines):
            break
    seconds, peak = time.monotonic() - begun, peak_of(process)
    process.stdin.close()
    if process.wait() != 0 or batches == 0:
        raise Wrong("the follower ended with status %d" % process.returncode)
    return seconds, batches, peak, last.split()[3].decode()


def verify(executable, export, key, commitment):
    """Verifies an export: the seconds, the memory, and the count and the SHA-256 of the lines that are printed."""
    begun = time.monotonic()
    words = [executable, "verify", "--text", export, key, commitment]
    process = subprocess.Popen(words, stdout=subprocess.PIPE, stderr=subprocess.DEVNULL)
    count, digest, peak = 0, hashlib.sha256(), 0.0
    while True:
        piece = os.read(process.stdout.fileno(), 1 << 20)
        if not piece:
            break
        count += piece.count(b"\n")
        digest.update(piece)
        peak = max(peak, peak_of(process))
    if process.wait() != 0:
        raise Wrong("verify ended with status %d" % process.returncode)
    return time.monotonic() - begun, peak, count, digest.digest()


def main(words):
    if not 2 <= len(words) <= 3 or words[0].startswith("-"):
        raise Usage
    program.use(words[0])
    most = int(words[2]) if len(words) > 2 else 2_000_000
    lines, found = lines_of(log_of_this_machine() if words[1] == "-" else read(words[1]), most)
    if found < most:
        print("the log has %d lines: they are repeated, each with a running number" % found)
    with tempfile.TemporaryDirectory(prefix="bench-follow-", dir=os.environ.get("TMPDIR", "/var/tmp")) as folder:
        return measure(folder, lines, most)


def measure(folder, lines, most):
    size, digest = sum(map(len, lines)), hashlib.sha256()
    for line in lines:
        digest.update(printed(line) + b"\n")
    store, key, export = (os.path.join(folder, name) for name in ("store", "key", "export"))
    make_store(program.PATH, store, key, 3 + sum((OVERHEAD + len(line) + SECTOR - 1) // SECTOR for line in lines))
    seconds, batches, peak, root = follow(program.PATH, store, lines)
    print("follow: %d lines, %.0f MB, in %.1f s: %.0f lines a second, %d batches; %.1f MB, %.0f bytes a line"
          % (most, size / 1e6, seconds, most / seconds, batches, peak, peak * 1e6 / most))
    done("export", store, export)
    os.remove(store)
    seconds, peak, count, got = verify(program.PATH, export, key, "%d:%s" % (most, root))
    print("verify --text: %d lines in %.1f s: %.0f a second; %.1f MB" % (count, seconds, count / seconds, peak))
    if (count, got) != (most, digest.digest()):
        print("the printed lines are not those that were piped")
        return 1
    return 0
