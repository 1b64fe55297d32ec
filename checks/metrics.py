"""Runs tools/metrics on stores of an executable that fill up, fail and are named oddly, and on witnesses, also after
kills; and tests that the rules raise each alert in time.

usage: bin/check metrics EXECUTABLE [SCENE ..]

What a store's header says is computed by the model. Without promtool neither rules nor metrics are judged by it.
"""
import fcntl
import json
import os
import random
import re
import shutil
import subprocess
import sys
import time

from checks.parts.files import mode_of, read, write
from checks.parts.logs import event_lines, payloads_of
from checks.parts.places import PACKAGING, tool
from checks.parts.program import SECONDS
from checks.parts.scenes import play_in_rooms, scene, scenes_in, words_of
from checks.parts.tools import needs
from checks.parts.wrong import expect, expect_true
from checks.system.common import active_header
from model.disk import SECTOR

METRICS, RULES = tool("metrics"), os.path.join(PACKAGING, "metrics.rules.yml")
USAGE = (2, b"usage: metrics OUT NAME=FILE.. [--witness NAME=STATUSFILE]..\n")
GROWTH = "last_growth_timestamp_seconds"
LINE = re.compile(r'audit_(metrics|store|witness)_(\w+)\{(out|store|witness)="((?:[^"\\]|\\["\\n])*)"\} (\d+)'
                  r"|# (HELP|TYPE) \w+ .+")


def run(room, *words, before=(), audit=None, **how):
    """Status and messages of a run."""
    done = subprocess.run([*before, METRICS, *words], cwd=room.folder,
                          env=dict(os.environ, AUDIT=audit or room.executable), timeout=SECONDS,
                          stdin=subprocess.DEVNULL, stdout=subprocess.PIPE, stderr=subprocess.PIPE, **how)
    expect(done.stdout, b"", "the output of a run")
    return done.returncode, done.stderr


def figures(room, label, name="s", out="out.prom"):
    """What OUT says of a store or a witness, by the ends of the metrics' names. Every line of OUT is judged."""
    text = read(room.path(out)).decode()
    expect_true(text.endswith("\n") and text.startswith("# HELP audit_metrics_run_timestamp_seconds "),
                "OUT isn't whole")
    expect(oct(mode_of(room.path(out))), "0o644", "the mode of OUT")
    found = {}
    for line in text.splitlines():
        form = LINE.fullmatch(line)
        expect_true(form, "a line of OUT: %s" % line)
        if form[3] == label and form[4] == name:
            found[form[2]] = int(form[5])
    return found


def expect_linted(room):
    if shutil.which("promtool"):
        with open(room.path("out.prom"), "rb") as file:
            done = subprocess.run(["promtool", "check", "metrics"], stdin=file, capture_output=True, timeout=SECONDS)
        expect((done.returncode, done.stdout, done.stderr), (0, b"", b""), "promtool check metrics")


def expect_figures(room, store, grew, what):
    """OUT has what the store's header says, and this time of growth; None for the time of the run."""
    found, header = figures(room, "store"), active_header(read(store))
    last = found.pop(GROWTH)
    if grew is None:
        expect_true(0 <= time.time() - last < SECONDS, "%s: it grew at %d" % (what, last))
    else:
        expect(last, grew, "%s: the time of its growth" % what)
    expect(found, {"look_status": 0, "events": header.count, "sectors": header.sectors,
                   "free_sectors": header.sectors - header.end,
                   "generation": header.generation, "closed": header.closed}, what)


def set_growth(room, value):
    """Makes the last growth of the store in OUT one of another time."""
    text = read(room.path("out.prom")).decode()
    write(room.path("out.prom"), re.sub(r'(?m)^(audit_store_%s\{store="s"\}) \d+$' % GROWTH, r"\1 %d" % value,
                                        text).encode())


@scene
def stores_fill_up(room):
    """The figures of a store that fills up and is closed, and the time at which it last grew, also over looks that
    fail."""
    store = room.store("store", sectors=12)
    for count in range(9):
        expect(run(room, "out.prom", "s=store"), (0, b""), "a run")
        expect_figures(room, store, None, "a store of %d events" % count)
        set_growth(room, 1000 + count)
        expect(run(room, "out.prom", "s=store"), (0, b""), "a second run")
        expect_figures(room, store, 1000 + count, "a store of %d events that has nothing new" % count)
        room.done("append", store, given=event_lines([b"x" * 400]))
    expect_linted(room)
    os.rename(store, room.path("away"))
    expect(run(room, "out.prom", "s=store")[0], 0, "a run without the store")
    expect(figures(room, "store"), {"look_status": 3, "events": 8, GROWTH: 1008}, "a store that is away")
    os.rename(room.path("away"), store)
    expect(run(room, "out.prom", "s=store"), (0, b""), "a run with a store that is back")
    expect_figures(room, store, None, "a store that grew while it was away")
    room.done("close", store)
    run(room, "out.prom", "s=store")
    expect_figures(room, store, None, "a store that is closed and full")
    expect(figures(room, "store")["free_sectors"], 0, "free sectors of a full store")
    # The next log has fewer events, and a clock that was set back gives no time to come.
    os.remove(store)
    room.store("store", sectors=64)
    set_growth(room, 1000)
    run(room, "out.prom", "s=store")
    expect_figures(room, store, None, "the next store under this name")
    set_growth(room, 1 << 40)
    run(room, "out.prom", "s=store")
    expect_figures(room, store, None, "a store after the clock was set back")


@scene
def looks_fail(room):
    """A look that fails is in OUT with its status, and its message is printed."""
    store = room.store("store", payloads_of("look", 3), sectors=64)
    write(room.path("damaged"), b"x" + read(store)[1:])
    write(room.path("zeros"), bytes(64 * SECTOR))
    os.mkdir(room.path("folder"))
    os.mkfifo(room.path("pipe"))
    cases = [("damaged", 1, b"audit: 2 DamagedHeader"), ("zeros", 1, b"audit: 1 NotAStore"),
             ("folder", 3, b"audit: file fault"),
             ("pipe", 3, b"audit: file fault"), ("none", 3, b"audit: file fault"), ("-none", 3, b"audit: file fault"),
             ("\x1b[2J", 3, b"audit: file fault")]
    for file, status, message in cases:
        found = run(room, "out.prom", "s=" + file, "other=store")
        expect((found[0], found[1][:len(b"metrics: s: status 1: ") + len(message)]),
               (0, b"metrics: s: status %d: %s" % (status, message)),
               "a run with %s" % file)
        expect_true(b"\x1b" not in found[1] and found[1].count(b"\n") == 1, "a message of a run: %r" % found[1])
        expect(figures(room, "store"), {"look_status": status}, "the look at %s" % file)
        expect(figures(room, "store", "other")["events"], 3, "the other store beside %s" % file)
        expect_linted(room)
    for script, status in ((b"kill -9 $$", 137), (b"echo commit 1", 255), (b"exit 7", 7), (None, 127)):
        program = room.path("program")
        if script:
            write(program, b"#!/bin/sh\n" + script + b"\n")
            os.chmod(program, 0o755)
        else:
            os.remove(program)
        expect(run(room, "out.prom", "s=store", audit=program)[0], 0, "a run with the program %s" % script)
        expect(figures(room, "store"), {"look_status": status}, "the look of the program %s" % script)


@scene
def names_are_labels(room):
    """Any name is a label's value, and leads to the time that OUT has; words that aren't NAME=FILE are refused."""
    room.store("store", payloads_of("name", 1), sectors=64)
    names = ['a"b', "a\\b", "a\\nb", "a\nb", 'x"} 1', "\\", "\u00fc \u202e", "{}", "s"]
    words = ["%s=store" % name for name in names]
    expect(run(room, "out.prom", *words, "--witness", 'a"\\=status'), (0, b""), "a run")
    for name in names:
        escaped = name.replace("\\", "\\\\").replace('"', '\\"').replace("\n", "\\n")
        expect(figures(room, "store", escaped)["events"], 1, "the store %r" % name)
    expect(figures(room, "witness", 'a\\"\\\\'), {"status": 0, "status_timestamp_seconds": 0},
           "a witness of such a name")
    expect_linted(room)
    text = read(room.path("out.prom"))
    write(room.path("out.prom"), re.sub(rb"(?m)^(audit_store_%s\{.*\}) \d+$" % GROWTH.encode(), rb"\1 77", text))
    run(room, "out.prom", *words)
    for name in names:
        escaped = name.replace("\\", "\\\\").replace('"', '\\"').replace("\n", "\\n")
        expect(figures(room, "store", escaped)[GROWTH], 77, "the time that is kept of %r" % name)
    before = read(room.path("out.prom"))
    for words in ([], ["out.prom"], ["out.prom", "s"], ["out.prom", "=store"], ["out.prom", "s="],
                  ["out.prom", "s=store", "s=store"], ["", "s=store"],
                  ["out.prom", "s=store", "--witness"], ["out.prom", "--witness", "s"],
                  ["out.prom", "--other", "s=store"],
                  ["out.prom", b"\xff=store"], ["out.prom", "--witness", "s=a", "--witness", "s=b"]):
        expect(run(room, *words), USAGE, "the words %r" % (words,))
    expect_true(read(room.path("out.prom")) == before, "refused words change OUT")
    expect_true(not os.path.exists(room.path("out.prom.tmp")), "refused words leave a file")


@scene
def witnesses_are_read(room):
    """The status that a unit left, as a number or a signal's name, and its time."""
    cases = [("0\n", 0), ("1\n", 1), ("3", 3), ("TERM\n", 143), ("KILL", 137), ("", 255), ("_IGN", 255), ("-1", 255),
             ("1000", 255), ("no status", 255)]
    words = []
    for number, (content, _) in enumerate(cases):
        path = room.path("status%d" % number)
        write(path, content.encode())
        os.utime(path, (1000 + number, 1000 + number))
        words += ["--witness", "w%d=%s" % (number, path)]
    expect(run(room, "out.prom", *words, "--witness", "none=none"), (0, b""), "a run")
    for number, (content, status) in enumerate(cases):
        expect(figures(room, "witness", "w%d" % number), {"status": status, "status_timestamp_seconds": 1000 + number},
               "a status %r" % content)
    expect(figures(room, "witness", "none"), {"status": 0, "status_timestamp_seconds": 0}, "a witness that never ended")
    os.mkfifo(room.path("pipe"))
    expect(run(room, "out.prom", "--witness", "w=pipe")[0], 0, "a pipe in place of a status")
    expect(figures(room, "witness", "w"), {"status": 255, "status_timestamp_seconds": 0}, "a pipe in place of a status")
    expect_linted(room)


@scene
def other_files_stay(room):
    """OUT replaces no store and nothing else that this program didn't write; OUT.tmp isn't written through a link."""
    store = room.store("store", payloads_of("stays", 2), sectors=64)
    write(room.path("text"), b"mine\n")
    os.mkdir(room.path("folder"))
    os.mkfifo(room.path("pipe"))
    names = sorted(os.listdir(room.folder))
    before = read(store)
    for out in "store", "text", "folder", "pipe", "none/out":
        found = run(room, out, "s=store")
        expect((found[0], found[1][:len(b"metrics: ") + len(out)]), (3, b"metrics: " + out.encode()), "OUT is %s" % out)
        expect(sorted(os.listdir(room.folder)), names, "the files after OUT was %s" % out)
    expect_true(read(store) == before and read(room.path("text")) == b"mine\n", "a file is replaced")
    for make in os.symlink, os.link:
        make(room.path("text"), room.path("out.prom.tmp"))
        expect(run(room, "out.prom", "s=store")[0], 3, "a link at OUT.tmp")
        expect(read(room.path("text")), b"mine\n", "the file behind a link at OUT.tmp")
        os.remove(room.path("out.prom.tmp"))
    # A second run at a time is refused, and OUT may be empty.
    write(room.path("out.prom"), b"")
    with open(room.path("out.prom.tmp"), "wb") as held:
        fcntl.flock(held, fcntl.LOCK_SH)
        expect(run(room, "out.prom", "s=store"), (3, b"metrics: out.prom is being written by another run\n"),
               "two runs at a time")
    for left in None, b"x" * 100_000:
        if left is None:
            os.remove(room.path("out.prom.tmp"))
        else:
            write(room.path("out.prom.tmp"), left)
        expect(run(room, "out.prom", "s=store", umask=0o077), (0, b""), "a run after that")
        expect(figures(room, "store")["events"], 2, "OUT after that")
    expect_true(not os.path.exists(room.path("out.prom.tmp")), "OUT.tmp is left")


@scene
def kills_leave_a_whole_file(room):
    """A run that is killed leaves the old OUT or the new one, and the next run needs nobody's help."""
    room.store("store", payloads_of("killed", 3), sectors=64)
    words = ["out.prom", "s=store"] + ["s%d=none" % number for number in range(3)]
    begun = time.monotonic()
    run(room, *words)
    lasts = time.monotonic() - begun
    ends = set()
    for _ in range(20):
        started = subprocess.Popen([METRICS, *words], cwd=room.folder, env=dict(os.environ, AUDIT=room.executable),
                                   stderr=subprocess.DEVNULL)
        time.sleep(random.random() * lasts * 1.2)
        started.kill()
        ends.add(started.wait(SECONDS))
        expect(figures(room, "store")["events"], 3, "OUT after a kill")
    expect_true(-9 in ends, "no run was killed")
    calls = ("flock", "ftruncate", "write", "fchmod", "fsync", "rename") if shutil.which("strace") else ()
    for call in calls:
        set_growth(room, 1234)
        strace = ["strace", "-f", "-o", room.path("calls"), "-P", room.path("out.prom.tmp"), "-e",
                  "inject=%s:signal=KILL" % call]
        run(room, room.path("out.prom"), *words[1:], before=strace)
        found = read(room.path("calls")) if os.path.exists(room.path("calls")) else b""
        if b"+++ killed by SIGKILL" not in found:
            # strace may not be allowed here.
            expect_true(call + "(" not in found.decode(errors="replace"), "no kill at %s" % call)
            continue
        os.remove(room.path("calls"))
        expect(figures(room, "store")[GROWTH], 1234, "OUT after a kill at %s" % call)
        expect(sorted(set(os.listdir(room.folder)) - {"out.prom.tmp"}), ["key", "out.prom", "store"],
               "the files after a kill at %s" % call)
    expect(run(room, *words)[0], 0, "a run after kills")
    expect(sorted(name for name in os.listdir(room.folder) if name != "calls"), ["key", "out.prom", "store"],
           "the files after kills")


# Series of an hour and more, a sample each minute, and which alerts fire at a minute. Of `good` none does.
GOOD = {"look_status": "0x300", "sectors": "10000x300", "free_sectors": "9000x300", "closed": "0x300",
        GROWTH: "0+60x300"}
ALERTS = [
    (GOOD, {0: [], 59: [], 300: []}),
    ({**GOOD, "free_sectors": "1000x300"}, {300: []}),
    ({**GOOD, "free_sectors": "999x300"}, {1: [], 2: ["AuditSectorsLow"], 300: ["AuditSectorsLow"]}),
    ({**GOOD, "free_sectors": "0x300"}, {300: ["AuditSectorsLow"]}),
    ({**GOOD, "free_sectors": "999x300", "closed": "1x300"}, {300: ["AuditStoreClosed"]}),
    # 3 sectors a minute are 8,640 in two days, which are left after 120 minutes.
    ({**GOOD, "free_sectors": "9000-3x300"},
     {119: [], 130: [], 132: ["AuditFullInTwoDays"], 300: ["AuditFullInTwoDays"]}),
    # A burst that is over, and a rotation.
    ({**GOOD, "free_sectors": "9000x60 8990-10x4 8950x300"}, {64: [], 140: []}),
    ({**GOOD, "free_sectors": "9000x10 5000x300"}, {11: [], 22: ["AuditFullInTwoDays"], 90: []}),
    ({**GOOD, "free_sectors": "1300-5x100 9900-1x200"},
     {100: ["AuditFullInTwoDays", "AuditSectorsLow"], 102: [], 250: []}),
    ({**GOOD, GROWTH: "0+60x30 1800x300"}, {90: [], 91: ["AuditNothingNew"]}),
    ({**GOOD, GROWTH: "0x300", "closed": "1x300"}, {90: ["AuditStoreClosed"]}),
    ({**GOOD, "look_status": "0x10 1x20 0x300"},
     {11: [], 12: [], 14: ["AuditLookFailed"], 31: ["AuditLookFailed"], 32: []}),
    ({"look_status": "3x300", GROWTH: "0x300"}, {2: ["AuditLookFailed"], 61: ["AuditLookFailed", "AuditNothingNew"]}),
]
WITNESS_ALERTS = [
    ({"status": "0x300", "status_timestamp_seconds": "0+60x300"}, {0: [], 300: []}),
    ({"status": "0x10 1x4 0x300", "status_timestamp_seconds": "0+60x300"},
     {10: [], 11: ["AuditPastDiffers"], 15: ["AuditPastDiffers"], 16: []}),
    ({"status": "0x10 3x4 0x300", "status_timestamp_seconds": "0+60x300"}, {15: [], 300: []}),
    ({"status": "0x10 3x300", "status_timestamp_seconds": "0+60x300"},
     {16: [], 17: ["AuditWitnessFailed"], 300: ["AuditWitnessFailed"]}),
    ({"status": "0x300", "status_timestamp_seconds": "0x300"}, {30: [], 31: ["AuditWitnessSilent"]}),
]
SEVERITIES = {"AuditLookFailed": "critical", "AuditPastDiffers": "critical"}


def test_of(prefix, label, series, wanted):
    """A test of promtool: which alerts fire at these minutes."""
    def sample(name):
        return {"labels": 'ALERTS{alertname="%s", alertstate="firing", severity="%s", %s="some"}'
                % (name, SEVERITIES.get(name, "warning"), label), "value": 1}
    return {"interval": "1m",
            "input_series": [{"series": '%s_%s{%s="some"}' % (prefix, name, label), "values": values} for name,
                             values in series.items()],
            "promql_expr_test": [{"expr": 'ALERTS{alertstate="firing"}', "eval_time": "%dm" % minute,
                                  "exp_samples": [sample(name) for name in names]}
                                 for minute, names in wanted.items()]}


@scene
def rules_raise_alerts(room):
    """What promtool says of the rules, and when each alert fires; each rule has a test in which it does."""
    needs("promtool")
    tests = [test_of("audit_store", "store", *case) for case in ALERTS]
    tests += [test_of("audit_witness", "witness", *case) for case in WITNESS_ALERTS]
    tests.append(test_of("audit_metrics", "out", {"run_timestamp_seconds": "0x300"}, {10: [], 11: ["AuditMetricsOld"]}))
    write(room.path("tests.yml"), json.dumps({"rule_files": [RULES], "evaluation_interval": "1m",
                                              "tests": tests}).encode())
    for words in ["check", "rules", RULES], ["test", "rules", room.path("tests.yml")]:
        done = subprocess.run(["promtool", *words], capture_output=True, timeout=SECONDS)
        expect_true(done.returncode == 0,
                    "promtool %s: %s" % (" ".join(words[:2]), (done.stdout + done.stderr).decode()))
    named = set(re.findall(r"- alert: (\w+)", read(RULES).decode()))
    fired = set(re.findall(r'alertname=\\"(\w+)', json.dumps(tests)))
    expect(fired, named, "the alerts that have a test")


SCENES = scenes_in(sys.modules[__name__])


def main(words):
    _, names = words_of(words, SCENES, options=())
    return play_in_rooms(SCENES, names)
