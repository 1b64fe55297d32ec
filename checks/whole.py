"""The whole test command, or one of its checks.

usage: bin/check
       bin/check --tests [EXECUTABLE ..]
       bin/check --list
       bin/check NAME [ARGUMENT ..]

Without a word it first runs the toolchain's gate, `rt ci`: every proof from nothing, the edits that must be refused,
the tests, and the programs' stored runs. Then it tests the executables of both of the toolchain's compilers: whole
command lines; the values that tests expect, against an independent model; little memory; the tour of the documents and
the auditor's own programs; installing; kills; what meets the operating system; a daemon with clients that behave badly,
and fed by other programs, also over a network; power cuts; stores on replicas, and machines that take them from each
other; and the auditor's page in a browser. It prints how long the gate took and when each crate was done. What can't be
tested here is printed as `left out: ..`. The last line counts the results of both parts, `N passed, M failed`; the
status is 0 if none failed.

--tests runs all but the proofs, on the executables that are built already, or on those given, such as that of bin/try.
--list names the checks, with what each is for and its usual time. NAME runs one of them; `bin/check NAME --help` prints
its usage. RT_JOBS in the environment sets the number of processors to use.

On four processors of 2.5 GHz it takes 56 minutes (12,650 processor seconds): 3,600 for the program's crates, 2,900 for
tests and tools, 4,500 for the edits and the first checks of their crates, and the rest to load, build and run. An edit
costs what proving its function costs, so those of short functions are cheap.
"""
import os
import shutil
import signal
import subprocess
import sys
import threading
import time

from checks import command
from checks.parts.places import CASES, SHELL, TOP, executable_of
from checks.parts.wrong import LEFT_OUT
from checks.table import CHECKS

NO_KIT = "the command 'rt' of the Rattle kit isn't on the PATH: install the kit that README.md names"


def provers():
    """How many provers to run at a time."""
    return int(subprocess.run([os.path.join(SHELL, "provers.sh")], check=True, stdout=subprocess.PIPE).stdout)


class Times:
    """When each crate passed a part of the gate, in seconds from its start."""

    HEAD = "crate", "proved", "tests proved", "edits begun"

    def __init__(self):
        self.rows, self.last = {}, 0

    def note(self, second, line):
        self.last = second
        words = line.split()
        if len(words) < 3 or words[0] != "rt:":
            return
        crate = words[1].replace(":", "", 1)
        if words[2] == "proved":
            self.set(crate, 0, second)
        elif line.endswith(": its tests are proved"):
            self.set(crate, 1, second)
        elif ": trying its must-fail edits" in line:
            self.set(crate, 2, second)

    def set(self, crate, column, second):
        self.rows.setdefault(crate, ["-"] * 3)[column] = second

    def table(self):
        lines = [(crate, *row) for crate, row in self.rows.items()]
        text = "".join("%-20s %8s %12s %12s\n" % line for line in [self.HEAD, *lines])
        return text + "%-20s %8s\n" % ("all", self.last)


class Results:
    """How many checks passed and failed, and the processes that still run."""

    def __init__(self):
        self.passed = self.failed = 0
        self.lock, self.running, self.is_over = threading.Lock(), set(), False

    def start(self, words, **how):
        with self.lock:
            if self.is_over:
                raise SystemExit(1)
            process = subprocess.Popen(words, stdout=subprocess.PIPE, stderr=subprocess.STDOUT, cwd=TOP, **how)
            self.running.add(process)
        return process

    def ended(self, process):
        with self.lock:
            self.running.discard(process)

    def check(self, *words):
        """Runs a check, counts it by its status, and prints what it found or left out."""
        if self.is_over:
            return
        process = self.start([sys.executable, *words])
        said = process.communicate()[0].decode(errors="replace").rstrip("\n")
        self.ended(process)
        with self.lock:
            self.count(" ".join(words), process.returncode, said)

    def count(self, name, status, said):
        left_out = "".join(line + "\n" for line in said.splitlines() if line.startswith("left out: "))
        if status == 0:
            self.passed += 1
            print(left_out, end="", flush=True)
        elif status == LEFT_OUT:
            print(said, flush=True)
        else:
            self.failed += 1
            print("%s: %s" % (name, said or "ended with status %d" % status), flush=True)

    def stop(self):
        """Ends what still runs."""
        with self.lock:
            self.is_over = True
            for process in self.running:
                process.terminate()

    def line(self):
        return "%d passed, %d failed" % (self.passed, self.failed)


def run_gate(results, jobs):
    """Prints what the gate prints, and when each crate was done, and counts its results."""
    environment = dict(os.environ)
    # On more than two processors the toolchain would leave some idle: it allots each check more memory than one here
    # takes.
    if jobs > 2:
        environment["RT_JOBS"] = str(jobs)
    begun, times, counts = time.monotonic(), Times(), None
    gate = results.start(["rt", "ci"], env=environment)
    for line in gate.stdout:
        line = line.decode(errors="replace").rstrip("\n")
        print(line, flush=True)
        times.note(int(time.monotonic() - begun), line)
        words = line.split()
        if words[1:4:2] == ["passed,", "failed"]:
            counts = int(words[0]), int(words[2])
    gate.wait()
    results.ended(gate)
    print("\nThe gate, in seconds from its start:\n" + times.table(), end="", flush=True)
    if counts is None:
        print("bin/check: the gate gave no count", flush=True)
    results.passed, results.failed = counts or (0, 1)


def checks_of_executable(program):
    """What is checked of an executable of the program, but for what uses the system's block devices."""
    cases = [["case", program, os.path.join("cases", name)] for name in sorted(os.listdir(CASES))]
    names = ["start", "memory", "tour", "vectors", "verify-on", "daemon", "client"]
    return cases + [[name, program] for name in names] + [["serve-kills", program, "10"]]


def checks_of_rest(program):
    """What is checked once."""
    endure = os.path.relpath(executable_of("audit_tool_endure"), TOP)
    return [
        ["version", program], ["install", program], ["refusals"], ["claims"], ["words"], ["edits"], ["names"],
        ["commits"], ["crates-table"], ["man-page"], ["endure", "20", endure], ["endure", "20", endure + ".by-rattle"],
        ["statement"], ["model"], ["placed"], ["rooms"], ["diagrams"], ["lengths"], ["feeds", program],
        ["network", program], ["power", program], ["bench", "fleet", program, "8"], ["siem", program],
        ["chain", program], ["rotating", program], ["sealing", program], ["anchors", program], ["metrics", program],
        ["library", program], ["units", program], ["page"], ["disclosed", program], ["salvaged", program],
    ]


def checks_of_machines(program):
    """A store on replicas, with one kill of a server, or of an OSD and three takeovers; and a lease that starts a
    daemon."""
    return [["replicated", program, "1"], ["replicated-ceph", program, "1", "3"], ["failover", program]]


def run_lane(results, checks):
    for words in checks:
        results.check(*(["bin/bench", *words[1:]] if words[0] == "bench" else ["bin/check", *words]))


def run_tests(results, jobs, programs):
    """All but the gate. Lanes of checks run beside each other if there are processors for that, since some wait for a
    certain time."""
    lanes = [checks_of_executable(program) for program in programs]
    lanes += [checks_of_rest(programs[0]), checks_of_machines(programs[0])]
    threads = [threading.Thread(target=run_lane, args=(results, lane), daemon=True) for lane in lanes]
    for thread in threads:
        thread.start()
        if jobs <= 2:
            thread.join()
    for thread in threads:
        thread.join()
    # These use the system's block devices, alone: a device stays in use as long as the mount namespace of another check
    # has a copy of its mount.
    run_lane(results, [["system", program] for program in programs])


def run_all(programs, with_gate):
    for number in signal.SIGTERM, signal.SIGHUP:
        signal.signal(number, lambda *_: sys.exit(1))
    results, jobs = Results(), provers()
    try:
        if with_gate:
            run_gate(results, jobs)
        run_tests(results, jobs, programs)
    finally:
        results.stop()
    print(results.line())
    return 0 if results.failed == 0 else 1


def built():
    """The executables of both compilers."""
    program = os.path.relpath(executable_of("audit"), TOP)
    return [program, program + ".by-rattle"]


def run_built(programs):
    """All but the gate, if it has been run before."""
    missing = [program for program in programs if not os.access(os.path.join(TOP, program), os.X_OK)]
    if missing:
        print("bin/check: there is no %s: `bin/check` builds it" % ", ".join(missing), file=sys.stderr)
        return 1
    return run_all(programs, with_gate=False)


def main(words):
    if words[:1] in (["--help"], ["-h"]):
        print(__doc__.strip())
        return 0
    if words == ["--list"]:
        command.print_list(CHECKS)
        return 0
    if words[:1] == ["--tests"]:
        return run_built([os.path.abspath(word) for word in words[1:]] or built())
    if words and words[0] not in CHECKS:
        return command.unknown("bin/check", words[0])
    if words:
        return command.run(CHECKS[words[0]], words[1:])
    if shutil.which("rt") is None:
        print("bin/check: " + NO_KIT, file=sys.stderr)
        return 127
    return run_all(built(), with_gate=True)
