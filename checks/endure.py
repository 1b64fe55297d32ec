"""Kills a program again and again, at random moments, while it appends batches to a store in a file. Each time it opens
the store, which must have every acknowledged batch and at most one more.

usage: bin/check endure [KILLS [EXECUTABLE]]

KILLS is 200 by default, and EXECUTABLE that of audit_tool_endure, which is built first if it wasn't. Only the process
is killed, not the machine: whatever the operating system has buffered is kept. The last line is 'N passed, M failed'.
"""
import os
import random
import subprocess
import time

from checks.parts.files import folder_of_its_own, read
from checks.parts.places import SHELL, executable_of
from checks.parts.wrong import LeftOut, Usage, expect

# The longest time until a kill, in seconds, and how many events a batch has.
LONGEST, BATCH = 0.05, 3


def executable_in(words):
    """The executable that is given, or that is built."""
    if words:
        path = os.path.abspath(words[0])
        if not os.access(path, os.X_OK):
            raise LeftOut("there is no %s: `bin/check` builds it" % words[0])
        return path
    subprocess.run([os.path.join(SHELL, "build.sh"), "audit_tool_endure"], check=True, stdout=subprocess.DEVNULL)
    return executable_of("audit_tool_endure")


def killed_append(executable):
    """The counts that a program acknowledged before it was killed, of the lines that it printed completely."""
    with open("acknowledged", "wb") as file:
        process = subprocess.Popen([executable, "append", "store", "100000"], stdout=file, stderr=subprocess.DEVNULL)
        time.sleep(random.uniform(0, LONGEST))
        process.kill()
        process.wait()
    return [int(line.split()[0]) for line in read("acknowledged").split(b"\n")[:-1]]


def count_in(executable):
    ended = subprocess.run([executable, "count", "store"], stdout=subprocess.PIPE, stderr=subprocess.DEVNULL)
    return int(ended.stdout) if ended.returncode == 0 else None


def play(executable, kills):
    expect(subprocess.run([executable, "format", "store"], stdout=subprocess.DEVNULL).returncode, 0,
           "the format of a store")
    passed = held = 0
    for kill in range(1, kills + 1):
        last = max([held, *killed_append(executable)])
        found = count_in(executable)
        if found in (last, last + BATCH):
            passed, held = passed + 1, found
        else:
            print("kill %d: %d events were acknowledged, %s are there" % (kill, last, found))
    print("%d events at the end" % held)
    print("%d passed, %d failed" % (passed, kills - passed))
    return 0 if passed == kills else 1


def main(words):
    if len(words) > 2 or words and not words[0].isdigit():
        raise Usage
    executable = executable_in(words[1:])
    with folder_of_its_own("endure-"):
        return play(executable, int(words[0]) if words else 200)
