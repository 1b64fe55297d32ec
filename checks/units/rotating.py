"""The units that let a log go on in the next store: at a time, and when the store is full."""
import time

from checks.parts.scenes import scene
from checks.parts.waiting import wait_for
from checks.parts.wrong import expect, expect_true
from checks.units.machine import SECONDS, alarm_is

FOLDER = "/var/lib/audit/turned"
# How many events the log has when it is rotated.
EVENTS = 2000
LONGEST_GAP = 5

# A log of small stores, which are full one after another, and the events of each of its sources.
FILLED = "/var/lib/audit/filled"
STORES, SECTORS = 11, 300
SENT, KINDS = 1600, (3, 4)
# What a source says each time that its daemon ends or is away.
ENDED = {b"audit: connection ended", b"audit: connection failed"}


@scene
def scene_rotation(machine):
    """The unit of rotations lets a log go on in the next store while sources send, and a rotation that can't be done
    leaves its daemon serving, with a warning. Each event is in one of the stores, once, in order."""
    machine.good("runuser", "-u", "audit", "--", "mkdir", "-p", FOLDER + "/prepared")
    machine.format(FOLDER + "/current.store", "20000")
    machine.write("/etc/default/audit-turned", "STORE=%s/current.store\n" % FOLDER)
    machine.start("audit-daemon@turned")
    text = b"".join(b"%d\n" % number for number in range(EVENTS))
    machine.good("audit", "send", "/run/audit-turned/writers/socket", "--text", "7", data=text)
    machine.run("systemctl", "start", "audit-rotate@turned")
    wait_for(lambda: machine.count("turned") == EVENTS, "a daemon after a rotation without a prepared store", SECONDS)
    wait_for(lambda: alarm_is(machine, "rotate", "turned", "warning", 1, b"audit store turned is not rotated, and its"),
             "a warning that nothing is prepared", 10)
    prepare(machine)
    begun = time.monotonic()
    machine.start("audit-rotate@turned")
    wait_for(lambda: machine.count("turned") == 2, "a daemon that goes on in the next store", SECONDS)
    gap = time.monotonic() - begun
    expect_true(gap < LONGEST_GAP, "a rotation takes %.1f seconds" % gap)
    machine.append("turned", "after")
    lines = listed(machine, FOLDER)
    expect([line[0] for line in lines], ["closed", "current", "prepared"], "the stores of a log that was rotated")
    expect((lines[0][2], lines[0][-1], lines[1][1]), (str(EVENTS + 1), "accepted", "3"), "what audit-log says of them")
    machine.stop("audit-daemon@turned")


@scene
def scene_full(machine):
    """A daemon that ends when its store is full goes on in the next one by itself, ten times, while two sources send.
    Each of their events is in one of the stores, once, in order. A daemon that is stopped isn't started again."""
    for number in range(STORES):
        prepare(machine, FILLED, "%03d" % number, number + 1, SECTORS)
    machine.good("mv", FILLED + "/prepared/000.store", FILLED + "/current.store")
    machine.write("/etc/default/audit-filled", "STORE=%s/current.store\nOPTIONS=--writer 9:/run/audit-filled/bound --until-free 2\n" % FILLED)
    machine.start("audit-rotate@filled.path")
    machine.start("audit-daemon@filled")
    senders = [machine.begun("audit", "send", "/run/audit-filled/writers/socket", "--text", str(kind), "--retry", "120",
                             data=b"".join(b"%d\n" % number for number in range(SENT))) for kind in KINDS]
    for sender in senders:
        expect((sender.wait(timeout=240), set(sender.stderr.read().splitlines()) - ENDED), (0, set()), "the end of a source")
    rows = listed(machine, FILLED)
    expect([row[0] for row in rows], ["closed"] * (STORES - 1) + ["current", "prepared"], "the stores of a log that was full")
    expect({row[-1] for row in rows if row[0] == "closed"}, {"accepted"}, "the links between them")
    machine.stop("audit-daemon@filled")
    machine.stop("audit-rotate@filled.path")
    time.sleep(3)
    expect(machine.property("audit-daemon@filled", "ActiveState"), "inactive", "a daemon that was stopped")
    events = events_over(machine, FILLED)
    for kind in KINDS:
        expect([payload for one, payload in events if one == kind], [b"%d" % number for number in range(SENT)],
               "the events of source %d" % kind)


def listed(machine, folder):
    """The words of each line that `audit-log` prints; its status tells that few stores are prepared."""
    words = "runuser", "-u", "audit", "--", "env", "AUDIT=/usr/bin/audit", "/usr/share/audit/audit-log", folder
    return [line.split() for line in machine.run(*words).stdout.decode().splitlines()]


def events_over(machine, folder):
    """The kind and payload of each event of a log's closed stores and its current one, in order."""
    closed = machine.good("sh", "-c", "ls -d %s/closed/*/store | sort -V" % folder).decode().split()
    events = []
    for number, store in enumerate([*closed, folder + "/current.store"]):
        lines = machine.good("sh", "-ec", """
            audit export "$0" /tmp/filled.export --read-only >/dev/null
            printf %064d "$1" >/tmp/filled.key
            audit verify /tmp/filled.export /tmp/filled.key "$(audit show "$0" --header | sed -n 's/^commit \\(.*\\) /\\1:/p')"
            """, store, str(number + 1)).splitlines()
        rows = [line.split() for line in lines if line.startswith(b"event ")]
        events += [(int(row[2]), b"" if row[3] == b"-" else bytes.fromhex(row[3].decode())) for row in rows]
    return events


def prepare(machine, folder=FOLDER, name="1", key=1, sectors=2000):
    """Makes a store that may be next, under a key of its own."""
    machine.good("runuser", "-u", "audit", "--", "sh", "-ec",
                 'mkdir -p "$0/prepared"; printf %064d "$1" | audit format "$0/prepared/$2.store" "$3" /dev/stdin',
                 folder, str(key), name, str(sectors))
