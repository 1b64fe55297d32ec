"""Measures what the store's layers cost, against what can't be avoided.

usage: bin/bench store [EVENTS [LEAVES [FRAMES [OPENED [HELD [VERIFIED [ASKED [LARGE]]]]]]]]

In this order:
- a replay of a 16 MiB input with payloads of two bytes, against just its SHA-256 blocks;
- pushes, roots and proofs of a history tree, and frames through a decoder;
- batches of one event and of 64 appended to a store in a file, against the same sectors written one by one, the same
  syncs and the SHA-256 blocks, and against one write for all sectors, the same syncs, SHA-256 and ChaCha20;
- opening that store, against its SHA-256 blocks, and the memory of a larger one;
- 16 sessions over a store in a file: they append small events with a flush after 1, 4, 16 and 64, against the same
  file calls and SHA-256 blocks, and request membership proofs, against the proofs, the reads of entries and their
  leaf hashes;
- verifying an export in a file, once with its events kept and in the two passes of the command, against its SHA-256
  blocks;
- appending and verifying events of the longest payload, against their SHA-256, their ChaCha20 and the same file
  calls;
- durable batches in SQLite, if Python has it.
The replay's time is processor time. The programs are built first if they weren't, which proves them.
"""
import os
import resource
import subprocess

from checks.bench import sqlite
from checks.parts.files import folder_of_its_own, write
from checks.parts.places import SHELL, executable_of
from checks.parts.wrong import LeftOut, Usage

SIZES = [1290549, 200000, 1000000, 131072, 1048576, 262144, 131072, 2053]


def run_built(crate, *words, **how):
    """Runs a program, which is built first if it wasn't."""
    return subprocess.run([os.path.join(SHELL, "build.sh"), crate, *words], check=True, **how)


def figures(*words):
    """The lines that the measuring program prints on standard error, each as its words; numbers are numbers."""
    said = run_built("audit_tool_bench", *map(str, words), stdout=subprocess.DEVNULL, stderr=subprocess.PIPE).stderr
    lines = [line.split() for line in said.decode().splitlines() if not line.startswith("bin/")]
    return [[int(word) if word.isdigit() else word for word in line] for line in lines if line]


def replay_seconds(events):
    """The processor time of a replay."""
    write("input", b"key %064d\n" % 0 + b"event 1 6869\n" * events)
    with open("input", "rb") as lines:
        run_built("audit", "replay", stdin=lines, stdout=subprocess.DEVNULL)
        lines.seek(0)
        before = resource.getrusage(resource.RUSAGE_CHILDREN)
        subprocess.run([executable_of("audit"), "replay"], stdin=lines, stdout=subprocess.DEVNULL, check=True)
        after = resource.getrusage(resource.RUSAGE_CHILDREN)
    return after.ru_utime + after.ru_stime - before.ru_utime - before.ru_stime


def measure_layers(events, leaves, frames):
    replayed = replay_seconds(events)
    for line in figures(events, leaves, frames):
        if line[0] == "events":
            blocks = line[3] / 1e9
            print("replay of %d events: %.2f s, their SHA-256 alone %.2f s, ratio %.2f"
                  % (line[1], replayed, blocks, replayed / blocks))
        elif line[0] == "pushes":
            print("a push of a leaf of 74 bytes: %.2f us" % (line[3] / line[1] / 1000))
        elif line[0] in ("roots", "proofs"):
            print("one of the %s at the last count: %.2f us" % (line[0], line[3] / line[1] / 1000))
        elif line[0] == "frames":
            print("frames: %.0f MB/s" % (line[3] * 1000 / line[5]))


def figures_of_file(what, size):
    """The figures of a file that is made for it and then removed."""
    try:
        return figures(1, 1, 1, what, os.path.abspath(what), size)
    finally:
        if os.path.exists(what):
            os.remove(what)


def measure_batches(events):
    for line in figures_of_file("store", events):
        if line[0] == "batches":
            print("a batch of %d durable: %.0f us, its calls and SHA-256 alone %.0f us, ratio %.2f"
                  % (line[1], line[3] / 1000, line[5] / 1000, line[3] / line[5]))
            print("with one write for its sectors and ChaCha20: %.0f us, ratio %.2f"
                  % (line[7] / 1000, line[3] / line[7]))
        elif line[0] == "opening":
            print("opening a store of %d events: %.2f s, their SHA-256 alone %.2f s, ratio %.2f"
                  % (line[1], line[3] / 1e9, line[7] / 1e9, line[3] / line[7]))


def measure_memory(held):
    lines = {line[0]: line for line in figures_of_file("store", held)}
    events, kilobytes = lines["opening"][1], lines["VmHWM:"][1]
    print("a store of %d events took at most %.0f MB of memory, %.0f bytes an event"
          % (events, kilobytes * 1024 / 1e6, kilobytes * 1024 / events))


def measure_sessions(asked):
    for line in figures_of_file("sessions", asked):
        if line[0] == "flushes":
            print("a flush of %d appends durable: %.0f us, its calls and SHA-256 alone %.0f us, ratio %.2f; %.0f "
                  "events a second"
                  % (line[1], line[3] / 1000, line[5] / 1000, line[3] / line[5], line[1] * 1e9 / line[3]))
        elif line[0] == "replies":
            print("a membership reply at %d events: %.2f us, its proof, reads and leaf hash alone %.2f us, ratio %.2f; "
                  "%.0f replies a second" % (line[7], line[3] / line[1] / 1000, line[5] / line[1] / 1000,
                                             line[3] / line[5],
                                             line[1] * 1e9 / line[3]))


def measure_export(verified):
    for line in figures_of_file("export", verified):
        if line[0] == "verifying":
            print("verifying an export of %d events: %.2f s, their SHA-256 alone %.2f s, ratio %.2f"
                  % (line[1], line[3] / 1e9, line[5] / 1e9, line[3] / line[5]))
            print("both passes over it: %.2f s, ratio %.2f" % (line[7] / 1e9, line[7] / line[5]))


def measure_large(large):
    whole = bare = 0
    for line in figures_of_file("large", large):
        if line[0] in ("appending", "verifying"):
            print("%s %d events of the longest payload: %.2f s, their SHA-256, ChaCha20 and calls alone %.2f s, ratio "
                  "%.2f"
                  % (line[0], line[1], line[3] / 1e9, line[5] / 1e9, line[3] / line[5]))
            whole, bare = whole + line[3], bare + line[5]
    print("both: ratio %.2f" % (whole / bare))


def main(words):
    if len(words) > len(SIZES) or not all(word.isdigit() for word in words):
        raise Usage
    events, leaves, frames, opened, held, verified, asked, large = [*map(int, words), *SIZES[len(words):]]
    with folder_of_its_own("bench-") as folder:
        measure_layers(events, leaves, frames)
        measure_batches(opened)
        measure_memory(held)
        measure_sessions(asked)
        measure_export(verified)
        measure_large(large)
        try:
            return sqlite.main([folder])
        except LeftOut:
            return 0
