"""Measures what it costs to disclose one in a thousand of a million events, and to read that disclosure, beside
verifying the same export: processor times, by turns.

usage: bin/bench disclosing EXECUTABLE [EVENTS]
"""
import os
import resource
import statistics
import subprocess
import tempfile

from checks.bench.stores import fill
from checks.parts import program
from checks.parts.daemons import commitment_of
from checks.parts.places import KEY
from checks.parts.program import done
from checks.parts.scenes import program_of

EVENTS = 1_000_000
ONE_IN = 1000
# An input of an append has at most 16 MiB.
AT_ONCE = 100_000
TURNS = 5


def seconds(*words):
    """The processor time of a command."""
    before = resource.getrusage(resource.RUSAGE_CHILDREN)
    subprocess.run([program.PATH, *words], stdout=subprocess.DEVNULL, check=True)
    after = resource.getrusage(resource.RUSAGE_CHILDREN)
    return after.ru_utime + after.ru_stime - before.ru_utime - before.ru_stime


def lines_of(numbers):
    """One in a thousand is of another kind."""
    return b"".join(b"event %d %064x\n" % (7 if number % ONE_IN == 0 else 1, number) for number in numbers)


def measure(folder, events):
    store, export, out = (os.path.join(folder, name) for name in ("store", "export", "out"))
    done("format", store, str(events + 3), KEY)
    fill(store, events + 3)
    for first in range(0, events, AT_ONCE):
        done("append", store, data=lines_of(range(first, min(first + AT_ONCE, events))), seconds=3600)
    committed = commitment_of(store)
    done("export", store, export, seconds=3600)
    ways = {"verify": ("verify", export, KEY, committed),
            "disclose": ("disclose", export, KEY, committed, out, "--kind", "7"),
            "verify --disclosed": ("verify", export, out, committed, "--disclosed")}
    times = {name: [] for name in ways}
    for _ in range(TURNS):
        for name, words in ways.items():
            if name == "disclose" and os.path.exists(out):
                os.remove(out)
            times[name].append(seconds(*words))
    return times


def report(times, events):
    whole = times["verify"]
    for name, taken in times.items():
        ratio = statistics.median(own / other for own, other in zip(taken, whole))
        print("%s, %d events: %.2f s, ratio to `verify` %.2f" % (name, events, statistics.median(taken), ratio))


def main(words):
    words = program_of(words, most=1)
    events = int(words[0]) if words else EVENTS
    with tempfile.TemporaryDirectory(prefix="bench-disclosing-") as folder:
        report(measure(folder, events), events)
    return 0
