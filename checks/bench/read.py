"""Measures `audit read` over a daemon's socket: a log of EVENTS lines is read whole, as text and as JSON; then 10,000
more are sent and read on, beside the same by `ask export --from` and `verify`; then nothing is new. It prints times,
rates, and the most memory that each program took (VmHWM). What was printed is compared with what was sent.

usage: bin/bench read EXECUTABLE [EVENTS]

EVENTS is 1000000 by default.
"""
import os
import statistics
import subprocess
import threading
import time

from checks.parts import program
from checks.parts.daemons import Daemon, commitment_in
from checks.parts.files import folder_of_its_own, read, write
from checks.parts.places import KEY
from checks.parts.program import done
from checks.parts.scenes import program_of
from checks.parts.wrong import Wrong, expect_true

NEW = 10_000
TURNS = 5


def lines(first, count):
    return b"".join(b"%08d session opened for user ada(uid=1000)\n" % number for number in range(first, first + count))


class Done:
    """How long a program ran, and the most memory that it took, in MB."""

    def __init__(self, words, output):
        begun = time.perf_counter()
        with open(output, "wb") as file:
            self.process = subprocess.Popen(words, stdout=file, stderr=subprocess.PIPE)
            self.peak = 0
            watcher = threading.Thread(target=self.watch)
            watcher.start()
            said = self.process.stderr.read()
            status = self.process.wait()
        self.seconds = time.perf_counter() - begun
        watcher.join()
        if status != 0:
            raise Wrong("%s: status %d, %r" % (" ".join(words), status, said))

    def watch(self):
        while self.process.poll() is None:
            try:
                with open("/proc/%d/status" % self.process.pid) as file:
                    found = [int(line.split()[1]) for line in file if line.startswith("VmHWM:")]
                with open("/proc/%d/comm" % self.process.pid) as file:
                    # Before it becomes the program it is still Python.
                    if found and "python" not in file.read():
                        self.peak = max(self.peak, found[0] * 1024 / 1e6)
            except (OSError, ValueError):
                return
            time.sleep(0.002)


def expect_same(path, wanted):
    expect_true(read(path) == wanted, "%s isn't what was sent" % path)


def report(what, runs, count=None):
    seconds = statistics.median(run.seconds for run in runs)
    rate = ", %.0f events a second" % (count / seconds) if count else ""
    print("%s: %.3f s%s, %.1f MB" % (what, seconds, rate, max(run.peak for run in runs)), flush=True)
    return seconds


def measure(audit, events):
    taken = {}
    for turn in range(3):
        for form in "--text", "--json":
            if os.path.exists("state"):
                os.remove("state")
            taken.setdefault(form, []).append(Done([audit, "read", "socket", "state", "--first", KEY, form],
                                                   "read" + form))
    expect_same("read--text", lines(0, events))
    text = report("read of %d events as text" % events, taken["--text"], events)
    json = report("the same as JSON", taken["--json"], events)
    print("JSON to text: %.2f" % (text / json))
    done("send", "socket", "--text", "1", data=lines(events, NEW))
    os.rename("state", "kept")
    reads, exports, verifies, looks = [], [], [], []
    for turn in range(TURNS):
        write("state", read("kept"))
        os.chmod("state", 0o600)
        reads.append(Done([audit, "read", "socket", "state", "--text"], "read-new"))
        expect_same("read-new", lines(events, NEW))
        looks.append(Done([audit, "read", "socket", "state", "--text"], "read-none"))
        exports.append(Done([audit, "ask", "socket", "export", "tail", "--from", str(events)], "said"))
        newest = commitment_in(done("ask", "socket", "commitment"))
        verifies.append(Done([audit, "verify", "tail", "kept", newest, "--text", "--save", "after"], "verified"))
    report("%d new events by read" % NEW, reads, NEW)
    report("the same by ask export --from", exports, NEW)
    report("and verify", verifies, NEW)
    report("nothing new", looks)


def main(words):
    events = int((program_of(words, 1) or [1_000_000])[0])
    with folder_of_its_own("bench-read-"):
        done("format", "store", str(events + 2 * NEW + 8192), KEY)
        write("lines", lines(0, events))
        with open("lines", "rb") as file:
            subprocess.run([program.PATH, "append", "store", "--text", "1", "--follow"], stdin=file, check=True,
                           stdout=subprocess.DEVNULL)
        with Daemon("store", "socket") as daemon:
            measure(program.PATH, events)
            daemon.stop()
    return 0
