"""`audit read` that is killed, and that looks again and again."""
import os
import random
import re
import subprocess
import time

from checks.client.common import DATE, lines, numbered, store
from checks.parts import program
from checks.parts.daemons import Daemon
from checks.parts.files import read, write
from checks.parts.logs import root
from checks.parts.program import done, done_with
from checks.parts.scenes import scene
from checks.parts.tools import needs
from checks.parts.wrong import expect


def events_of(output):
    """The events of numbered lines, by index."""
    found = {}
    for line in output.splitlines():
        index, kind, text = line.split(b"\t")
        expect(found.setdefault(int(index), (kind, text)), (kind, text), "event %d" % int(index))
    return found


@scene
def scene_reading_kills():
    """Readers are killed at random moments, while a client sends and the daemon is killed too. By index nothing is
    missing, and nothing differs."""
    store(65536)
    count = 40 if not program.LONG else 200
    random.seed(57)
    sent, printed = 0, b""
    for turn in range(count):
        with Daemon("store", "kill%d.sock" % turn) as daemon:
            done("send", daemon.socket, data=numbered(50, sent))
            sent += 50
            reader = subprocess.Popen([program.PATH, "read", daemon.socket, "state", "--first", "key", "--text",
                                       "--numbers", "--every", "1"],
                                      stdout=subprocess.PIPE, stderr=subprocess.DEVNULL)
            time.sleep(random.random() * 0.06)
            if turn % 3 == 0:
                daemon.process.kill()
                time.sleep(random.random() * 0.02)
            reader.kill()
            found = reader.communicate()[0]
            printed += found[:found.rfind(b"\n") + 1]
    with Daemon("store", "last.sock"):
        printed += done_with(b"audit: verified %d open\n" % sent, "read", "last.sock", "state", "--first", "key",
                             "--text", "--numbers")
    found = events_of(printed)
    expect(sorted(found), list(range(sent)), "the indices of all events")
    expect([text for _, (_, text) in sorted(found.items())], [b"%08d" % place for place in range(sent)], "the events")


def calls_of(words, log):
    """The system calls that a command makes, by name and number, after it was started."""
    subprocess.run(["strace", "-f", "-qq", "-o", log, *words], stdout=subprocess.DEVNULL, stderr=subprocess.DEVNULL,
                   timeout=program.SECONDS)
    counts = {}
    with open(log, encoding="ascii", errors="replace") as file:
        for line in file:
            found = re.match(r"\d+ +([a-z0-9_]+)\(", line)
            if found:
                counts[found[1]] = counts.get(found[1], 0) + 1
    return [(name, number) for name, count in sorted(counts.items()) for number in range(1, count + 1)
            if name != "execve"]


@scene
def scene_reading_cut_at_calls():
    """Readers are killed before each of their system calls; without --long before one of eight. The next one goes on
    from a whole state: by index no event is missing, and none differs."""
    needs("strace")
    store(65536)
    # Two pieces.
    payloads = [b"%05d" % place * 6000 for place in range(40)]
    done("append", "store", data=b"".join(b"event 1 %s\n" % payload.hex().encode() for payload in payloads))
    words = ["read", "daemon.sock", "state", "--text", "--numbers"]
    with Daemon("store"):
        # The first state, of no event.
        write("none", b"")
        done("verify", "none", "key", "0:" + root([], 0).hex(), "--save", "state")
        first = read("state")
        calls = calls_of([program.PATH, *words], "calls")
        expect(len(calls) > 100 and any(name == "rename" or name == "renameat2" for name, _ in calls), True,
               "the calls of a reader")
        for name, number in calls if program.LONG else calls[random.randrange(8)::8]:
            write("state", first)
            cut = subprocess.run(["strace", "-qq", "-o", "/dev/null", "-e", "trace=" + name, "-e",
                                  "inject=%s:signal=SIGKILL:when=%d" % (name, number),
                                  program.PATH, *words], capture_output=True, timeout=program.SECONDS)
            what = "a reader that is killed at %s %d" % (name, number)
            expect(cut.returncode in (-9, 137), True, what + " ends with status %d" % cut.returncode)
            printed = cut.stdout[:cut.stdout.rfind(b"\n") + 1] + done_with(b"audit: verified 40 open\n", *words)
            found = events_of(printed)
            expect(sorted(found), list(range(40)), what + ": the indices")
            expect([text for _, (_, text) in sorted(found.items())] == payloads, True, what + ": the events")
            expect(done_with(b"audit: verified 40 open\n", *words), b"", what + ": a second look")


@scene
def scene_reading_synced():
    """The file that is standard output is synced before the state that counts its lines: a loss of power leaves out
    none."""
    needs("strace")
    store()
    done("append", "store", data=numbered(200))
    with Daemon("store"), open("out", "ab") as out:
        traced = subprocess.run(["strace", "-f", "-y", "-o", "calls", program.PATH, "read", "daemon.sock", "state",
                                 "--first", "key", "--text"],
                                stdout=out, stderr=subprocess.PIPE, timeout=program.SECONDS)
        expect(traced.returncode, 0, "a reader under strace")
    unsynced, counted, here = False, 0, os.path.realpath("out")
    for line in read("calls").decode(errors="replace").splitlines():
        call = line.split(" ", 1)[1].lstrip()
        if re.match(r"writev?\(1<", call):
            expect("<%s>" % here in call, True, "the output of a reader")
            unsynced = True
        elif re.match(r"f(data)?sync\(\d+<%s>\) += 0" % re.escape(here), call):
            unsynced = False
        elif re.match(r'rename.*[/"]state"', call):
            counted += 1
            expect(unsynced, False, "a state that counts lines that aren't synced")
    expect((counted >= 2, unsynced), (True, False), "the states of a reader, and its last lines")


@scene
def scene_reading_live():
    """With `--every` events are printed as they come, a server that is gone is reported once, and so is its return."""
    store()
    done("append", "store", data=lines(3))
    reader = None
    try:
        with Daemon("store") as daemon:
            reader = subprocess.Popen([program.PATH, "read", "daemon.sock", "state", "--first", "key", "--json",
                                       "--every", "1"],
                                      stdout=subprocess.PIPE, stderr=subprocess.PIPE)
            expect([reader.stdout.readline().count(b'"index":%d' % place) for place in range(3)], [1, 1, 1],
                   "the first events")
            expect(reader.stderr.readline(), b"audit: verified 3 open\n", "their end")
            done("send", "daemon.sock", data=lines(1, 3))
            expect(reader.stdout.readline().count(b'"index":3'), 1, "the next event")
            expect(reader.stderr.readline(), b"audit: verified 4 open\n", "its end")
            daemon.stop()
        expect(reader.stderr.readline(), b"audit: file fault\n", "a server that is gone")
        expect(re.fullmatch(rb"audit: daemon.sock: .+, " + DATE + b"\n", reader.stderr.readline()) is not None, True,
               "its cause")
        time.sleep(2.2)
        with Daemon("store"):
            expect(re.fullmatch(rb"audit: daemon.sock: answers again, " + DATE + b"\n",
                                reader.stderr.readline()) is not None, True, "its return")
            done("send", "daemon.sock", data=lines(1, 4))
            expect(reader.stdout.readline().count(b'"index":4'), 1, "an event after its return")
    finally:
        if reader:
            reader.kill()
            reader.communicate()
