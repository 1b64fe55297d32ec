"""Measures what an executable takes to open a store, beside another one, such as that of an earlier commit: the
processor times of `show`, which reads the whole log, by turns. The first of each turn alternates.

usage: bin/bench openings EXECUTABLE OTHER [EVENTS]
"""
import os
import resource
import statistics
import subprocess
import tempfile

from checks.parts import program
from checks.parts.places import KEY
from checks.parts.program import done
from checks.parts.scenes import program_of
from checks.parts.wrong import Usage

EVENTS = 1_000_000
TURNS = 11


def seconds(path, store):
    """The processor time of an opening."""
    before = resource.getrusage(resource.RUSAGE_CHILDREN)
    subprocess.run([path, "show", store, "--read-only"], stdout=subprocess.DEVNULL, check=True)
    after = resource.getrusage(resource.RUSAGE_CHILDREN)
    return after.ru_utime + after.ru_stime - before.ru_utime - before.ru_stime


def store_of(folder, events):
    """A store of lines of a hundred bytes, of seven kinds."""
    store = os.path.join(folder, "store")
    done("format", store, str(events + 3), KEY)
    for kind in range(7):
        lines = b"".join(b"%-99d\n" % number for number in range(kind, events, 7))
        done("append", store, "--follow", "--text", str(kind), data=lines, stdout=subprocess.DEVNULL, seconds=3600)
    return store


def measure(paths, store):
    """The times of both, after one opening of each that isn't counted."""
    times = {path: [] for path in paths}
    for turn in range(TURNS + 1):
        for path in paths if turn % 2 else paths[::-1]:
            times[path].append(seconds(path, store))
    return [times[path][1:] for path in paths]


def main(words):
    rest = program_of(words, most=2)
    if not rest:
        raise Usage
    paths, events = (program.PATH, os.path.abspath(rest[0])), int(rest[1]) if len(rest) > 1 else EVENTS
    with tempfile.TemporaryDirectory(prefix="bench-openings-") as folder:
        own, other = measure(paths, store_of(folder, events))
    print("an opening of %d events: %.2f s, of the other %.2f s, ratio %.3f" % (
        events, statistics.median(own), statistics.median(other),
        statistics.median(mine / theirs for mine, theirs in zip(own, other))))
    return 0
