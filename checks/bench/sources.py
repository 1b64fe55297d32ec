"""Measures what places cost: events a second that `audit send --text` sends over a source's socket, with places and
without, alternately, and lines a second of `tools/file-feed`, from the first line of a file until the last one is
acknowledged. Lines have 100 bytes.

usage: bin/bench sources EXECUTABLE
"""
import collections
import contextlib
import os
import statistics
import subprocess
import tempfile
import time

from checks.bench.stores import fill
from checks.parts import program
from checks.parts.daemons import Daemon
from checks.parts.files import read_text
from checks.parts.places import KEY, tool
from checks.parts.program import done
from checks.parts.scenes import program_of

KIND = 7
LINES = 200_000
WINDOWS = 64, 1024
TURNS = 6
WAYS = ("plain", ()), ("placed", ("--placed",))
# A turn appends the lines for each window with places and without, and those of the feed. A batch takes whole sectors.
SECTORS = 2_000_000


def write_lines(path):
    with open(path, "wb") as lines:
        for number in range(LINES):
            lines.write(b"%-99d\n" % number)
    return path


def sent_a_second(path, lines, window, *words):
    with open(lines, "rb") as given:
        begun = time.monotonic()
        subprocess.run([program.PATH, "send", path, "--text", str(KIND), "--window", str(window), *words], stdin=given,
                       stdout=subprocess.DEVNULL, check=True)
        return LINES / (time.monotonic() - begun)


def fed_a_second(path, lines, kept):
    """The feed keeps its place once a line is acknowledged."""
    begun = time.monotonic()
    feed = subprocess.Popen([tool("file-feed"), path, kept, lines, str(KIND)], stderr=subprocess.DEVNULL,
                            env=dict(os.environ, AUDIT=program.PATH))
    try:
        size = os.path.getsize(lines)
        while not os.path.exists(kept) or str(size) not in read_text(kept).split():
            if feed.poll() is not None:
                raise SystemExit("file-feed has ended with status %d" % feed.returncode)
            time.sleep(0.01)
        return LINES / (time.monotonic() - begun)
    finally:
        feed.terminate()
        feed.wait()


@contextlib.contextmanager
def source_of_new_store(folder):
    """A daemon over a new store, and what a source of it needs: its socket, and a file of lines."""
    os.mkdir(folder)
    store, source = os.path.join(folder, "store"), os.path.join(folder, "source")
    lines = write_lines(os.path.join(folder, "lines"))
    done("format", store, str(SECTORS), KEY)
    fill(store, SECTORS)
    words = "--writer", "%d:%s" % (KIND, source)
    with Daemon(store, os.path.join(folder, "socket"), *words, stderr=subprocess.DEVNULL) as daemon:
        yield source, lines
        daemon.stop()
    os.remove(store)


def measure_turn(rates, folder, ways):
    """In this order of ways, since whoever sends second has a longer log. The feed has a store of its own, since it passes
    over as many lines as a log has of its kind."""
    with source_of_new_store(folder + "-sent") as (source, lines):
        for window in WINDOWS:
            for name, words in ways:
                rates[name, window].append(sent_a_second(source, lines, window, *words))
    with source_of_new_store(folder + "-fed") as (source, lines):
        rates["fed"].append(fed_a_second(source, lines, os.path.join(folder + "-fed", "position")))


def report(rates):
    for window in WINDOWS:
        pairs = zip(rates["placed", window], rates["plain", window])
        ratio = statistics.median(placed / plain for placed, plain in pairs)
        print("send, %d ahead: %.0f events a second, with places %.0f, ratio %.3f" % (
            window, statistics.harmonic_mean(rates["plain", window]), statistics.harmonic_mean(rates["placed", window]),
            ratio))
    print("file-feed: %.0f lines a second" % statistics.harmonic_mean(rates["fed"]))


def main(words):
    program_of(words)
    rates = collections.defaultdict(list)
    with tempfile.TemporaryDirectory(prefix="bench-sources-") as folder:
        for turn in range(TURNS):
            measure_turn(rates, os.path.join(folder, str(turn)), WAYS if turn % 2 else WAYS[::-1])
    report(rates)
    return 0
